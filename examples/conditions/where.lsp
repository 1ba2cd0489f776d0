(defun average (numbers)
  (let ((sum (apply #'+ numbers)))
    (format-integer (standard-output) (div sum (length numbers)) 10)))
(average nil)
