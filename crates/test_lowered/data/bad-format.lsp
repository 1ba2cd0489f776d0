(format (standard-output) "~Q" 1)
