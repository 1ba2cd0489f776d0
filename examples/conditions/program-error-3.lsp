(format (standard-output) "~D")
