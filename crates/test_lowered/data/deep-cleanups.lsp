(defun deep (n) (if (= n 0) (throw 'a 'out) (unwind-protect (deep (- n 1)) 1)))
(format (standard-output) "~A~%" (catch 'a (deep 5000)))
