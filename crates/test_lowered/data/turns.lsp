(let ((i 0)) (while (< i 1000000) (setq i (+ i 1))) (format (standard-output) "~D~%" i))
