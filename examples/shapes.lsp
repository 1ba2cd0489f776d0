; Judged as a whole program by `isl check`, which runs nothing.
(defclass <shape> () ((name :initarg name :reader name-of)) (:abstractp t))
(defclass <square> (<shape>) ((side :initarg side :accessor side-of)))

(defgeneric area (shape))
(defmethod area ((s <square>)) (* (side-of s) (side-of s)))

(defun first-over (limit shapes)
  (block found
    (mapc (lambda (s) (if (> (area s) limit) (return-from found s))) shapes)
    nil))

(let ((squares (list (create (class <square>) 'name 'small 'side 2)
                     (create (class <square>) 'name 'large 'side 5))))
  (format (standard-output) "~A~%" (name-of (first-over 10 squares))))
