; A function that keeps what it has given, in a vector by its argument.
(defun remembering (function size)
  (let ((known (create-vector size nil)))
    (lambda (n)
      (or (aref known n)
          (setf (aref known n) (funcall function n))))))

(defglobal calls 0)
(defglobal fibonacci
  (remembering
    (lambda (n)
      (setq calls (+ calls 1))
      (if (< n 2) n (+ (funcall fibonacci (- n 1)) (funcall fibonacci (- n 2)))))
    50))

(format (standard-output) "~D in ~D calls~%" (funcall fibonacci 40) calls)
