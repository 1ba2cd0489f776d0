(defglobal l nil)
(unwind-protect (while t (setq l (cons 1 l))) (format (standard-output) "cleanup~%"))
