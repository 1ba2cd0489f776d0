(read-line)
