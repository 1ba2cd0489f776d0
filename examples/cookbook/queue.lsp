; A queue: what was put in first comes out first. Its last cons is kept, so that nothing goes along the list.
(defclass <queue> () ((front :initform nil :accessor front-of) (last :accessor last-of)))

(defun put-in (queue item)
  (let ((new (list item)))
    (if (null (front-of queue))
        (setf (front-of queue) new)
        (set-cdr new (last-of queue)))
    (setf (last-of queue) new)))

(defun take-out (queue)
  (if (null (front-of queue)) (error "the queue is empty"))
  (let ((item (car (front-of queue))))
    (setf (front-of queue) (cdr (front-of queue)))
    item))

(let ((queue (create (class <queue>))))
  (put-in queue 'a)
  (put-in queue 'b)
  (format (standard-output) "~S~%" (take-out queue))
  (put-in queue 'c)
  (while (front-of queue)
    (format (standard-output) "~S~%" (take-out queue))))
