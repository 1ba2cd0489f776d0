; Functions: how they are applied, and arguments that may be left out.

; The value of a function applied to arguments.
(defun funcall (function :rest arguments)
  (%apply function arguments))

; The same, the last argument being a list of further arguments.
(defun apply (function argument :rest arguments)
  (if (null arguments)
      (%apply function argument)
      (progn
        (assure <function> function)
        (%apply function (%spread (cons argument arguments))))))

; The items of a list in front of those of its last item, which is to be a list itself.
(defun %spread (items)
  (let ((front nil))
    (while (not (null (cdr items)))
      (setq front (cons (car items) front))
      (setq items (cdr items)))
    (%apply #'%list (car items))   ; signals where it is no list
    (%turn-onto front (car items))))

; The one argument that may be left out: it stands in a list of further arguments, or else it is this value.
(defun %optional (arguments default)
  (cond ((null arguments) default)
        ((null (cdr arguments)) (car arguments))
        (t (%program-error))))

; Of a list of arguments that may be left out, the one with this index, or else this value.
(defun %argument (arguments index default)
  (while (and (> index 0) (not (null arguments)))
    (setq arguments (cdr arguments))
    (setq index (- index 1)))
  (if (null arguments) default (car arguments)))

; So many arguments may be in a list, and no more.
(defun %at-most (count arguments)
  (if (< count (%list-length arguments)) (%program-error)))

; An integer that is to be no less than 0.
(defun %natural (number)
  (if (and (integerp number) (>= number 0))
      number
      (%domain-error number (class <integer>))))
