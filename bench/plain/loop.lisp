(defun fill1 (v n) (let ((i 0)) (loop (if (not (< i n)) (return nil)) (setf (svref v i) i) (setq i (+ i 1)))))
(defun total (v n) (let ((i 0) (s 0)) (loop (if (not (< i n)) (return nil)) (setq s (+ s (svref v i))) (setq i (+ i 1))) s))
(let ((v (make-array 10000)) (k 0))
  (loop (if (not (< k 20)) (return nil)) (fill1 v 10000) (total v 10000) (setq k (+ k 1))))
