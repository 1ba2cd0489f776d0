; Checks of a program that say what they checked: (check FORM VALUE) evaluates the form, and tells where it gives
; another value; (check-signals CLASS FORM) tells where it signals no condition of that class. The macros have the form
; itself, so it can be printed beside what it gave.

(defglobal right 0)
(defglobal wrong 0)

(defun told (form result wanted)
  (if (equal result wanted)
      (setq right (+ right 1))
      (progn
        (setq wrong (+ wrong 1))
        (format (standard-output) "~S gave ~S, not ~S~%" form result wanted))))

(defmacro check (form wanted)
  `(told ',form ,form ,wanted))

(defmacro check-signals (class form)
  (let ((outside (gensym)) (condition (gensym)))
    `(check (block ,outside
              (with-handler
                  (lambda (,condition)
                    (if (instancep ,condition (class ,class))
                        (return-from ,outside 'signalled)
                        (signal-condition ,condition nil)))
                ,form))
            'signalled)))

; A group of checks, each a list of its form and its value.
(defmacro checks (name :rest lines)
  `(progn
     (format (standard-output) "~A~%" ',name)
     ,@(mapcar (lambda (line) `(check ,(car line) ,(elt line 1))) lines)))

(defun average (list) (div (apply #'+ list) (length list)))

(checks "averages"
  ((average '(1 2 3)) 2)
  ((average '(10)) 10)
  ((average '(1 2)) 2))
(check-signals <division-by-zero> (average '()))
(check-signals <domain-error> (car 5))
(format (standard-output) "~D right, ~D wrong~%" right wrong)
