(let ((i 0)) (while (< i 7000) (format (standard-output) "~D is ~X, ~A~%" (* i i) i (- i)) (setq i (+ i 1))))
