(let ((i 0)) (loop (if (not (< i 7000)) (return nil)) (format t "~D is ~X, ~A~%" (* i i) i (- i)) (setq i (+ i 1))))
