; Asks until the answer is a digit from 1 to 9. Where the input ends before that, the answer is 1.
(defun digit-of (line)
  (if (= (length line) 1) (char-index (elt line 0) "0123456789") nil))

(defun ask ()
  (block answered
    (while t
      (format (standard-output) "a digit from 1 to 9? ")
      (let ((line (read-line (standard-input) nil "1")))
        (case (digit-of line)
          ((nil 0) (format (standard-output) "~A is none~%" line))
          (t (return-from answered (digit-of line))))))))

(format (standard-output) "twice that is ~D~%" (* 2 (ask)))
