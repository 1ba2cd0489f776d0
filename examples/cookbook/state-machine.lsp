; A state machine as a table: for each state, where an event leads and what is said. A turnstile takes a coin for
; each push.
(defconstant table
  '((locked (coin open "thank you") (push locked "pay first"))
    (open (coin open "paid already") (push locked "go on"))))

(defglobal state 'locked)

(defun happens (event)
  (let ((row (cdr (assoc event (cdr (assoc state table))))))
    (format (standard-output) "~A, ~A: ~A~%" state event (elt row 1))
    (setq state (car row))))

(mapc #'happens '(push coin coin push push))
