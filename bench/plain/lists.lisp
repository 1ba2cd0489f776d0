(defun up-to (n) (let ((l nil)) (loop (if (not (> n 0)) (return nil)) (setq l (cons n l)) (setq n (- n 1))) l))
(let ((i 0) (l (up-to 10000)))
  (loop (if (not (< i 12)) (return nil)) (reverse (append (mapcar (lambda (x) (+ x 1)) l) l)) (setq i (+ i 1))))
