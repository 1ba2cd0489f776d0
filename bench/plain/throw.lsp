(defun down (n) (if (= n 0) (throw 'k 1) (+ 1 (down (- n 1)))))
(let ((i 0)) (while (< i 20000) (catch 'k (down 20)) (setq i (+ i 1))))
