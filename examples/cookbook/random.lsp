; Numbers that look random, the same in each run: a linear generator whose products stay below 30 bits. It makes dice.
(defglobal seed 1)

(defun random (limit)
  (setq seed (mod (* 171 seed) 30269))
  (mod seed limit))

(for ((i 0 (+ i 1)))
     ((= i 10) (format (standard-output) "~%"))
  (format (standard-output) "~D " (+ 1 (random 6))))
