(defun down (n) (if (= n 0) (throw 'k 1) (+ 1 (down (- n 1)))))
(let ((i 0)) (loop (if (not (< i 20000)) (return nil)) (catch 'k (down 20)) (setq i (+ i 1))))
