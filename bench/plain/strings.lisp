(defun turn (s n) (concatenate 'string (subseq s n (length s)) (subseq s 0 n)))
(let ((i 0) (s (concatenate 'string (make-string 50 :initial-element #\a) (make-string 50 :initial-element #\b))))
  (loop (if (not (< i 3400)) (return nil)) (setq s (turn s 7)) (setq i (+ i 1))))
