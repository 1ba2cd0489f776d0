(read-char (standard-input))
