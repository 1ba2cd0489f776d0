; Variables: in parallel and one after another, set, global and dynamic.
(defun digit (n) (format-char (standard-output) (%code-char (+ n 48))))
(digit (let ((x 1)) (let ((x 2) (y x)) (+ x y))))     ; 3: bound in parallel
(digit (let ((x 1)) (let* ((x 2) (y x)) (+ x y))))    ; 4: one after another
(defglobal count 1)
(setq count (+ count 1))
(digit count)                                         ; 2
(defdynamic depth 1)
(defun seen () (dynamic depth))
(digit (dynamic-let ((depth 5)) (seen)))              ; 5: the binding is seen through the call
(setf (dynamic depth) 6)
(digit (seen))                                        ; 6
