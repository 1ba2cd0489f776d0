; Conditions: a handler leaves a block, handlers run outside in, and one continues.
(defun put (c) (format-char (standard-output) c))
(defun digit (n) (put (%code-char (+ n 48))))
(digit (block failed
         (with-handler (lambda (c) (return-from failed 7))
           (+ 1 (car nil)))))
(catch 'done
  (with-handler (lambda (c) (put #\i) (throw 'done nil))
    (with-handler (lambda (c) (put #\o) (car nil))
      (car nil))))
(digit (with-handler (lambda (c) (continue-condition c 4))
         (+ 1 (signal-condition (%allocate (class <simple-error>)) t))))
