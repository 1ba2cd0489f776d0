; Conditions: errors are signalled, and conditions are asked what they are about and reported.

; A <domain-error>: an object is not of the class that was expected.
(defun %domain-error (object expected-class)
  (let ((condition (%allocate (class <domain-error>))))
    (%slot-set object condition (%slot-place condition 'object))
    (%slot-set expected-class condition (%slot-place condition 'expected-class))
    (signal-condition condition nil)))

; A <program-error>: arguments do not go together.
(defun %program-error ()
  (signal-condition (%allocate (class <program-error>)) nil))

; A <parse-error>: a string is not the text of what was to be read.
(defun %parse-error ()
  (signal-condition (%allocate (class <parse-error>)) nil))

; A <simple-error> that cannot be continued, with a format string and its objects.
(defun error (error-string :rest objects)
  (signal-condition (%simple-error error-string objects) nil))

; The same, marked with the string that says how it goes on where it is continued.
(defun cerror (continue-string error-string :rest objects)
  (signal-condition (%simple-error error-string objects) continue-string))

; A <simple-error> that is not signalled yet.
(defun %simple-error (error-string objects)
  (create (class <simple-error>) 'format-string error-string 'format-arguments objects))

; Calls the innermost active handler with the condition.
(defun signal-condition (condition continuable)
  (signal-condition condition continuable))

; Makes the signal of this condition give the value, nil where none is named.
(defun continue-condition (condition :rest value)
  (continue-condition condition (%optional value nil)))

; What the latest signal of the condition was marked with.
(defun condition-continuable (condition)
  (condition-continuable condition))

; The parts of conditions.
(defun simple-error-format-string (condition)
  (%slot-of (assure <simple-error> condition) 'format-string))

(defun simple-error-format-arguments (condition)
  (%slot-of (assure <simple-error> condition) 'format-arguments))

(defun domain-error-object (condition)
  (%slot-of (assure <domain-error> condition) 'object))

(defun domain-error-expected-class (condition)
  (%slot-of (assure <domain-error> condition) 'expected-class))

(defun undefined-entity-name (condition)
  (%slot-of (assure <undefined-entity> condition) 'name))

; Prints what a condition says: its string with its objects for a <simple-error>, else the name of its class.
(defgeneric report-condition (condition stream))

(defmethod report-condition ((condition <serious-condition>) stream)
  (%print stream (%class-name (class-of condition)) nil))

(defmethod report-condition ((condition <simple-error>) stream)
  (%format stream (simple-error-format-string condition) (simple-error-format-arguments condition)))
