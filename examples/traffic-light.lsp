; A traffic light: a table of phases, and a clock that goes through it second by second. A button, which people who want to
; cross the street press, ends a long green early; a fault makes the light blink until it is repaired.

; Each phase: its name, how many seconds it lasts, and the phase behind it.
(defconstant phases
  '((red 3 red-and-amber)
    (red-and-amber 1 green)
    (green 8 amber)
    (amber 2 red)))

(defun seconds-of (phase) (elt (assoc phase phases) 1))
(defun behind (phase) (elt (assoc phase phases) 2))

(defclass <light> ()
  ((phase :initform 'red :accessor phase-of)
   (left :initform (seconds-of 'red) :accessor left-of)))

(defun enter (light phase seconds)
  (setf (phase-of light) phase)
  (setf (left-of light) seconds))

; What an event does to the light.
(defgeneric happens (event light))

(defun tick (light)
  (cond ((eq (phase-of light) 'blinking))
        ((> (left-of light) 1) (setf (left-of light) (- (left-of light) 1)))
        (t (let ((next (behind (phase-of light))))
             (enter light next (seconds-of next))))))

(defmethod happens ((event <symbol>) light)
  (case event
    ((button) (if (eq (phase-of light) 'green)
                  (setf (left-of light) (min 2 (left-of light)))))
    ((fault) (enter light 'blinking 0))
    ((repair) (if (eq (phase-of light) 'blinking)
                  (enter light 'red (seconds-of 'red))))
    (t (error "no event ~S" event))))

; An event with its argument: a light of another place that tells this one to wait.
(defmethod happens ((event <cons>) light)
  (case (car event)
    ((wait) (setf (left-of light) (+ (left-of light) (elt event 1))))
    (t (error "no event ~S" event))))

; Runs a light for so many seconds, with the events of each second, and prints each second at which the phase changes.
(defun run (light seconds events)
  (let ((shown nil))
    (for ((now 0 (+ now 1)))
         ((= now seconds))
      (mapc (lambda (event) (if (= (car event) now) (happens (cdr event) light))) events)
      (if (not (eq shown (phase-of light)))
          (progn
            (setq shown (phase-of light))
            (format (standard-output) "~A~A ~A~%" (if (< now 10) " " "") now shown)))
      (tick light))))

(run (create (class <light>)) 40
     '((6 . button) (12 wait 2) (21 . fault) (22 . button) (25 . repair) (39 . fault)))
