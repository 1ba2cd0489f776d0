(defun fill (v n) (let ((i 0)) (while (< i n) (%set-vector-ref i v i) (setq i (+ i 1)))))
(defun total (v n) (let ((i 0) (s 0)) (while (< i n) (setq s (+ s (%vector-ref v i))) (setq i (+ i 1))) s))
(let ((v (%make-vector 10000 0)) (k 0))
  (while (< k 20) (fill v 10000) (total v 10000) (setq k (+ k 1))))
