; A symbolic differentiator. An expression is an integer, a symbol, (+ a b), (- a b), (* a b) or (expt a n) with an integer n
; that is not below 1. What is made is simplified as it is made.

; Makers of expressions.
(defun is-number (expression n)
  (and (integerp expression) (= expression n)))

(defun make-sum (a b)
  (cond ((and (integerp a) (integerp b)) (+ a b))
        ((is-number a 0) b)
        ((is-number b 0) a)
        ((equal a b) (make-product 2 a))
        (t (list '+ a b))))

(defun make-difference (a b)
  (cond ((and (integerp a) (integerp b)) (- a b))
        ((is-number b 0) a)
        ((equal a b) 0)
        (t (list '- a b))))

(defun make-product (a b)
  (cond ((and (integerp a) (integerp b)) (* a b))
        ((or (is-number a 0) (is-number b 0)) 0)
        ((is-number a 1) b)
        ((is-number b 1) a)
        ((integerp b) (make-product b a))
        (t (list '* a b))))

(defun make-power (a n)
  (cond ((= n 0) 1)
        ((= n 1) a)
        ((integerp a) (expt a n))
        (t (list 'expt a n))))

; An expression that has none of these forms.
(defclass <no-expression> (<error>)
  ((expression :initarg expression :reader expression-of)))

; The derivative by a variable.
(defun derive (expression variable)
  (cond ((integerp expression) 0)
        ((symbolp expression) (if (eq expression variable) 1 0))
        ((and (consp expression) (= (length expression) 3))
         (let ((a (elt expression 1)) (b (elt expression 2)))
           (case (car expression)
             ((+) (make-sum (derive a variable) (derive b variable)))
             ((-) (make-difference (derive a variable) (derive b variable)))
             ((*) (make-sum (make-product a (derive b variable))
                            (make-product (derive a variable) b)))
             ((expt) (make-product (make-product b (make-power a (- b 1)))
                                   (derive a variable)))
             (t (no-expression expression)))))
        (t (no-expression expression))))

(defun no-expression (expression)
  (signal-condition (create (class <no-expression>) 'expression expression) nil))

; The value of an expression where its variables have values.
(defun value (expression values)
  (cond ((integerp expression) expression)
        ((symbolp expression) (cdr (assoc expression values)))
        (t (apply (cdr (assoc (car expression) (list (cons '+ #'+) (cons '- #'-) (cons '* #'*) (cons 'expt #'expt))))
                  (mapcar (lambda (part) (value part values)) (cdr expression))))))

(mapc (lambda (expression)
        (block told
          (with-handler
            (lambda (condition)
              (if (instancep condition (class <no-expression>))
                  (progn
                    (format (standard-output) "~S is no expression~%" (expression-of condition))
                    (return-from told nil))
                  (signal-condition condition nil)))
            (let ((derived (derive expression 'x)))
              (format (standard-output) "~S has ~S, at 3 ~D~%" expression derived (value derived '((x . 3) (a . 10))))))))
      '(7 x (+ x x) (* x x) (expt x 3) (- (* a (expt x 2)) (* 4 x)) (expt (+ (* 2 x) 1) 4) (* x (sin x))))
