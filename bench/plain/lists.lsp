(defun up-to (n) (let ((l nil)) (while (> n 0) (setq l (cons n l)) (setq n (- n 1))) l))
(let ((i 0) (l (up-to 10000)))
  (while (< i 12) (reverse (append (mapcar (lambda (x) (+ x 1)) l) l)) (setq i (+ i 1))))
