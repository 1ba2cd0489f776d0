; What is read is printed: %get-byte gives the next byte of the input, and -1 behind its end.
(let ((byte (%get-byte)))
  (while (>= byte 0)
    (format-char (standard-output) (%code-char byte))
    (setq byte (%get-byte))))
