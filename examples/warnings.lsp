(defun f (x) (when x (g x)))
(f 1 2)
(f total)
