; A table keyed by strings. assoc compares by eql, for which two strings are not the same, so the search is
; written here.
(defclass <table> () ((entries :initform nil :accessor entries-of)))

(defun entry (table key)
  (block found
    (mapc (lambda (entry) (if (string= key (car entry)) (return-from found entry))) (entries-of table))
    nil))

(defun look-up (table key default)
  (let ((there (entry table key)))
    (if there (cdr there) default)))

(defun enter (table key value)
  (let ((there (entry table key)))
    (if there
        (set-cdr value there)
        (setf (entries-of table) (cons (cons key value) (entries-of table))))))

(let ((counts (create (class <table>))))
  (mapc (lambda (word) (enter counts word (+ 1 (look-up counts word 0)))) '("tea" "milk" "tea" "tea"))
  (format (standard-output) "~S~%" (entries-of counts))
  (format (standard-output) "~D ~A~%" (look-up counts "tea" 0) (look-up counts "rum" 'none)))
