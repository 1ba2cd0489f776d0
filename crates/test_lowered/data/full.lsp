(defglobal l nil)
(format (standard-output) "begin~%")
(while t (setq l (cons 1 l)))
