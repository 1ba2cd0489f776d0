(defun adder (n) (lambda (x) (+ x n)))
(defun twice (f x) (funcall f (funcall f x)))
(let ((i 0)) (while (< i 100000) (twice (adder i) 1) (setq i (+ i 1))))
