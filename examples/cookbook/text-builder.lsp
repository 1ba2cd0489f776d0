; A text that is put together piece by piece, as a string stream would do it: the pieces are kept, and joined once
; at the end.
(defclass <builder> () ((pieces :initform nil :accessor pieces-of)))

(defun add (builder piece)
  (setf (pieces-of builder) (cons piece (pieces-of builder))))

(defun text-of (builder)
  (apply #'string-append (reverse (pieces-of builder))))

(let ((line (create (class <builder>))))
  (for ((n 1 (+ n 1)))
       ((> n 5))
    (if (> n 1) (add line " "))
    (add line (convert (* n n) <string>)))
  (format (standard-output) "~A has ~D characters~%" (text-of line) (length (text-of line))))
