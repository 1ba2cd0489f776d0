; The parts of a text between one character, which may be empty; and the words of a line, which are not.
(defun split (text char)
  (let ((parts nil) (from 0))
    (for ((at (char-index char text) (char-index char text from)))
         ((null at) (reverse (cons (subseq text from (length text)) parts)))
      (setq parts (cons (subseq text from at) parts))
      (setq from (+ at 1)))))

(defun words (line)
  (mapcan (lambda (part) (if (string= part "") nil (list part))) (split line #\space)))

(mapc (lambda (value) (format (standard-output) "~S~%" value))
      (list (split "a,b,,c" #\,) (split "" #\,) (words " one  two ")))
