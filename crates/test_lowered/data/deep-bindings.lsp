(defdynamic d 0)
(defun deep (n) (if (= n 0) (dynamic d) (dynamic-let ((d (+ 1 (dynamic d)))) (deep (- n 1)))))
(format (standard-output) "~A~%" (deep 5000))
