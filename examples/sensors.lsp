; A bank of sensors: each is a function that gives its next reading. Limits and the title of a report are dynamic variables, so
; that a caller far up can set them for a while, and they are what they were when it is left, in whichever way.

(defdynamic *low* 0)
(defdynamic *high* 100)
(defdynamic *title* "day")

; A reading that is outside the limits. Whoever handles the condition may give a reading in its place.
(defclass <bad-reading> (<error>)
  ((sensor :initarg sensor :reader sensor-of)
   (reading :initarg reading :reader reading-of)))

(defun check (name reading)
  (if (or (< reading (dynamic *low*)) (> reading (dynamic *high*)))
      (signal-condition (create (class <bad-reading>) 'sensor name 'reading reading) t)
      reading))

; A sensor that gives one reading after another, and begins again behind the last one.
(defun make-sensor (readings)
  (let ((left readings))
    (lambda ()
      (if (null left) (setq left readings))
      (let ((reading (car left)))
        (setq left (cdr left))
        reading))))

; The sensors by name.
(defglobal bank
  (list (cons "boiler" (make-sensor '(60 72 81 99)))
        (cons "cellar" (make-sensor '(12 11 -3)))
        (cons "roof" (make-sensor '(25 140)))))

; One reading of each sensor, in a line.
(defun sweep ()
  (format (standard-output) "~A ~D to ~D:" (dynamic *title*) (dynamic *low*) (dynamic *high*))
  (mapc (lambda (sensor)
          (format (standard-output) " ~A ~D" (car sensor) (check (car sensor) (funcall (cdr sensor)))))
        bank)
  (format (standard-output) "~%"))

; Sweeps where what is outside the limits is told and is taken for the nearest limit.
(defun sweep-on ()
  (let ((bad nil))
    (with-handler
      (lambda (condition)
        (setq bad (cons (sensor-of condition) bad))
        (continue-condition condition
                            (max (dynamic *low*) (min (dynamic *high*) (reading-of condition)))))
      (sweep))
    (format (standard-output) "  outside: ~A~%" (reverse bad))))

; Sweeps where one bad reading ends the sweep.
(defun sweep-strictly ()
  (dynamic-let ((*high* 80) (*title* "strict"))
    (block stopped
      (with-handler
        (lambda (condition)
          (format (standard-output) "~&  stopped at ~A: ~D is not in ~D to ~D~%"
                  (sensor-of condition) (reading-of condition) (dynamic *low*) (dynamic *high*))
          (return-from stopped nil))
        (sweep)))))

(sweep)
(sweep-on)
(dynamic-let ((*title* "night") (*low* 5) (*high* 30))
  (sweep-on)
  (setf (dynamic *low*) 0)      ; seen until this dynamic-let is left
  (sweep-on))
(sweep-strictly)
(sweep-strictly)
(sweep-on)
