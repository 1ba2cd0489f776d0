; Rules by patterns: (rules NAME (PATTERN RESULT) ..) defines a function that gives the result of the first rule whose
; pattern fits its argument, and the argument where none fits. A symbol in a pattern fits anything and names it in the
; result; where it stands twice, both have to be equal. A quoted symbol, and a number, fit themselves.

; The form that is `then` where `pattern` fits the value of the variable `value`, and else `otherwise`; `bound` are the
; symbols that were met.
(defun fits (pattern value bound then otherwise)
  (cond ((null pattern) `(if (null ,value) ,(funcall then bound) ,otherwise))
        ((symbolp pattern)
         (if (member pattern bound)
             `(if (equal ,pattern ,value) ,(funcall then bound) ,otherwise)
             `(let ((,pattern ,value)) ,(funcall then (cons pattern bound)))))
        ((and (consp pattern) (eq (car pattern) 'quote))
         `(if (eq ,value ,pattern) ,(funcall then bound) ,otherwise))
        ((consp pattern)
         (let ((front (gensym)) (rest (gensym)))
           `(if (consp ,value)
                (let ((,front (car ,value)) (,rest (cdr ,value)))
                  ,(fits (car pattern) front bound
                         (lambda (more) (fits (cdr pattern) rest more then otherwise))
                         otherwise))
                ,otherwise)))
        (t `(if (eql ,value ,pattern) ,(funcall then bound) ,otherwise))))

; The rules behind one are a function of no argument, so their forms stand once.
(defun choice (value rules)
  (if (null rules)
      value
      (let ((rule (car rules)) (others (gensym)))
        `(let ((,others (lambda () ,(choice value (cdr rules)))))
           ,(fits (car rule) value nil (lambda (bound) (elt rule 1)) `(funcall ,others))))))

(defmacro rules (name :rest list)
  (let ((value (gensym)))
    `(defun ,name (,value) ,(choice value list))))

; Sums and products with less in them.
(rules simpler
  (('+ x 0) x)
  (('+ 0 x) x)
  (('+ x x) (list '* 2 x))
  (('* x 0) 0)
  (('* x 1) x)
  (('* 1 x) x))

; The parts first, and then the whole.
(defun simplify (form)
  (if (consp form)
      (simpler (cons (car form) (mapcar #'simplify (cdr form))))
      form))

(mapc (lambda (form) (format (standard-output) "~A = ~A~%" form (simplify form)))
      '((+ a 0) (+ a a) (* (+ 0 b) 1) (+ (* a 0) (* 1 b)) (+ (* a 1) (+ 0 a)) (- a a)))
