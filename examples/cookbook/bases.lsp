; Numbers in other bases: by format, and as a text with zeros in front.
(defun digits (number base)
  (let ((last (create-string 1 (elt "0123456789ABCDEF" (mod number base)))))
    (if (< number base) last (string-append (digits (div number base) base) last))))

(defun in-base (number base width)
  (let ((text (digits number base)))
    (string-append (create-string (max 0 (- width (length text))) #\0) text)))

(format (standard-output) "~X ~B ~O~%" 255 5 64)
(format (standard-output) "~A ~A ~A~%" (in-base 255 16 4) (in-base 5 2 8) (in-base 64 8 1))
