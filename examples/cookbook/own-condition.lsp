; A condition of one's own: what it carries, how it is reported, and a handler that mends it and goes on.
(defclass <out-of-stock> (<error>)
  ((item :initarg item :reader item-of)))

(defmethod report-condition ((condition <out-of-stock>) stream)
  (format stream "there is no ~A" (item-of condition)))

; The condition can be continued: with what is taken in the item's place.
(defun order (item)
  (if (member item '(tea milk))
      item
      (signal-condition (create (class <out-of-stock>) 'item item) t)))

(defun offer-tea (condition)
  (report-condition condition (standard-output))
  (format (standard-output) ", so tea~%")
  (continue-condition condition 'tea))

(format (standard-output) "~S~%" (with-handler #'offer-tea (list (order 'milk) (order 'rum))))
