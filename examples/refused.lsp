(format-char (standard-output) #\h)
(return-from nowhere 1)
