; A condition that no handler takes runs the cleanups and ends the program.
(defun first-of (l)
  (unwind-protect
      (car l)
    (format-char (standard-output) #\c)))
(first-of 5)
