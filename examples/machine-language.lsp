; A small language of state machines, made by one macro: (machine NAME START (STATE (EVENT NEXT ACTION..) ..) ..)
; defines a function of an event, which goes on to the next state and gives what the actions give. An event for which
; the state has no line changes nothing and gives nil.

(defun event-clause (state line)
  `((,(car line)) (setq ,state ',(elt line 1)) ,@(cdr (cdr line))))

(defun state-clause (state event description)
  `((,(car description))
    (case ,event
      ,@(mapcar (lambda (line) (event-clause state line)) (cdr description))
      (t nil))))

(defmacro machine (name state start :rest descriptions)
  (let ((event (gensym)))
    `(progn
       (defglobal ,state ',start)
       (defun ,name (,event)
         (case ,state
           ,@(mapcar (lambda (d) (state-clause state event d)) descriptions))))))

; A door that is locked, closed or open, and counts how often it was opened.
(defglobal opened 0)

(machine door door-state closed
  (locked (unlock closed 'unlocked))
  (closed (lock locked 'locked)
          (push open (setq opened (+ opened 1)) 'opened))
  (open (pull closed 'closed)))

(mapc (lambda (event)
        (format (standard-output) "~A: ~A, and it is ~A~%" event (door event) door-state))
      '(push lock pull lock push unlock push))
(format (standard-output) "opened ~D times~%" opened)
