; Reads line by line until the input ends: read-line gives nil there where its second argument is nil.
(for ((line (read-line (standard-input) nil nil) (read-line (standard-input) nil nil))
      (number 1 (+ number 1)))
     ((null line) (format (standard-output) "~D lines~%" (- number 1)))
  (format (standard-output) "~D: ~A~%" number line))
