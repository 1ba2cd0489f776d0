(defun try (n) (block b (handler-bind ((error (lambda (c) (return-from b n)))) (car n))))
(let ((i 0)) (loop (if (not (< i 100000)) (return nil)) (try i) (setq i (+ i 1))))
