(defun turn (s n) (string-append (subseq s n (length s)) (subseq s 0 n)))
(let ((i 0) (s (string-append (create-string 50 #\a) (create-string 50 #\b))))
  (while (< i 3400) (setq s (turn s 7)) (setq i (+ i 1))))
