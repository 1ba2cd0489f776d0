(if (< (+ 1 2) 4)
    (format-char (standard-output) #\y)
    (format-char (standard-output) #\n))
