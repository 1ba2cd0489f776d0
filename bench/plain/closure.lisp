(defun adder (n) (lambda (x) (+ x n)))
(defun twice (f x) (funcall f (funcall f x)))
(let ((i 0)) (loop (if (not (< i 100000)) (return nil)) (twice (adder i) 1) (setq i (+ i 1))))
