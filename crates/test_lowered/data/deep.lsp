(defun deep (n) (if (= n 0) 0 (+ 1 (deep (- n 1)))))
(format (standard-output) "~D~%" (deep 10000))
