(progn)
  (format-char (standard-output) #\no)
