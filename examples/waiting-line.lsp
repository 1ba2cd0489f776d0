; Queues: one that gives back first what came in first, and one that lets in front what is urgent. Both answer the same generic
; functions, so that the desk below does not know which of them it has.

(defclass <queue> () () (:abstractp t))

(defclass <empty-queue> (<error>) ())

(defmethod report-condition ((condition <empty-queue>) stream) (format stream "nobody waits"))

; Puts an item in, gives the next item and takes it out, and tells how many items there are.
(defgeneric enqueue (queue item))
(defgeneric dequeue (queue))
(defgeneric size-of (queue))

(defmethod dequeue :before ((queue <queue>))
  (if (= (size-of queue) 0)
      (signal-condition (create (class <empty-queue>)) nil)))

; First in, first out: a list of the items and its last cons, to which the next item is added.
(defclass <line> (<queue>)
  ((first :initform nil :accessor first-of)
   (last :initform nil :accessor last-of)))

(defmethod enqueue ((queue <line>) item)
  (let ((new (list item)))
    (if (null (first-of queue))
        (setf (first-of queue) new)
        (setf (cdr (last-of queue)) new))
    (setf (last-of queue) new)
    queue))

(defmethod dequeue ((queue <line>))
  (let ((item (car (first-of queue))))
    (setf (first-of queue) (cdr (first-of queue)))
    item))

(defmethod size-of ((queue <line>)) (length (first-of queue)))

; A line for each degree of urgency; the number of an item is asked of a function, and 0 is most urgent.
(defclass <urgent-queue> (<queue>)
  ((degree :initarg degree :reader degree-of)
   (lines :initarg lines :reader lines-of)))

(defun make-urgent-queue (degrees degree)
  (create (class <urgent-queue>)
          'degree degree
          'lines (mapcar (lambda (n) (create (class <line>))) (create-list degrees 0))))

(defmethod enqueue ((queue <urgent-queue>) item)
  (enqueue (elt (lines-of queue) (funcall (degree-of queue) item)) item)
  queue)

(defmethod dequeue ((queue <urgent-queue>))
  (block found
    (mapc (lambda (line) (if (> (size-of line) 0) (return-from found (dequeue line))))
          (lines-of queue))))

(defmethod size-of ((queue <urgent-queue>))
  (apply #'+ (mapcar #'size-of (lines-of queue))))

; The desk: patients come, some are seen, others come, and all the rest is seen.
(defun desk (queue)
  (mapc (lambda (patient) (enqueue queue patient)) '((cough . 2) (wound . 1) (cold . 2) (heart . 0)))
  (see queue 2)
  (mapc (lambda (patient) (enqueue queue patient)) '((burn . 0) (tooth . 1)))
  (see queue 5))

; Sees so many patients, or as many as there are.
(defun see (queue count)
  (format (standard-output) "~D wait:" (size-of queue))
  (block over
    (with-handler
      (lambda (condition)
        (format (standard-output) " - ")
        (report-condition condition (standard-output))
        (return-from over nil))
      (for ((n 0 (+ n 1))) ((= n count)) (format (standard-output) " ~A" (car (dequeue queue))))))
  (format (standard-output) "~%"))

(mapc #'desk (list (create (class <line>)) (make-urgent-queue 3 #'cdr)))
