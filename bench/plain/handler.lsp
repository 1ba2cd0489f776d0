(defun try (n) (block b (with-handler (lambda (c) (return-from b n)) (car n))))
(let ((i 0)) (while (< i 100000) (try i) (setq i (+ i 1))))
