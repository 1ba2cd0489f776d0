; How many lines, words and characters the input has. A word begins where no blank follows one.
(defun is-blank (char) (or (char= char #\space) (char= char #\newline)))

(let ((lines 0) (words 0) (characters 0) (in-word nil))
  (for ((char (read-char (standard-input) nil nil) (read-char (standard-input) nil nil)))
       ((null char))
    (setq characters (+ characters 1))
    (if (char= char #\newline) (setq lines (+ lines 1)))
    (if (not (or in-word (is-blank char))) (setq words (+ words 1)))
    (setq in-word (not (is-blank char))))
  (format (standard-output) "~D lines, ~D words, ~D characters~%" lines words characters))
