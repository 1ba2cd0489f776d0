; A rule engine: from facts, rules draw further facts until there is nothing new. A fact is a list; a rule has patterns that are
; all to be met by facts, and a conclusion. A symbol that begins with ? stands for anything, the same at each place of a rule.

(defconstant rules
  '((parent ((father ?x ?y)) (parent ?x ?y))
    (also-parent ((mother ?x ?y)) (parent ?x ?y))
    (ancestor ((parent ?x ?y)) (ancestor ?x ?y))
    (far-ancestor ((parent ?x ?y) (ancestor ?y ?z)) (ancestor ?x ?z))
    (sibling ((parent ?x ?y) (parent ?x ?z) (different ?y ?z)) (sibling ?y ?z))))

; The newest fact stands first.
(defglobal facts nil)

(defun known (fact)
  (block found
    (mapc (lambda (other) (if (equal other fact) (return-from found t))) facts)
    nil))

(defun is-variable (object)
  (and (symbolp object)
       (eql (elt (convert object <string>) 0) #\?)))

; The bindings with which a pattern is a fact: an association list that begins with (found), nil where there are none.
(defun match (pattern fact bindings)
  (cond ((null bindings) nil)
        ((is-variable pattern)
         (let ((binding (assoc pattern bindings)))
           (cond ((null binding) (cons (car bindings) (cons (cons pattern fact) (cdr bindings))))
                 ((equal (cdr binding) fact) bindings)
                 (t nil))))
        ((and (consp pattern) (consp fact))
         (match (cdr pattern) (cdr fact) (match (car pattern) (car fact) bindings)))
        ((eql pattern fact) bindings)
        (t nil)))

; A pattern with its variables filled in.
(defun fill (pattern bindings)
  (cond ((is-variable pattern) (cdr (assoc pattern bindings)))
        ((consp pattern) (cons (fill (car pattern) bindings) (fill (cdr pattern) bindings)))
        (t pattern)))

; Calls a function with all bindings that meet the patterns. (different a b) is no fact but a test.
(defun each-way (patterns bindings use)
  (cond ((null patterns) (funcall use bindings))
        ((eq (car (car patterns)) 'different)
         (let ((test (fill (car patterns) bindings)))
           (if (not (equal (elt test 1) (elt test 2)))
               (each-way (cdr patterns) bindings use))))
        (t (mapc (lambda (fact)
                   (let ((further (match (car patterns) fact bindings)))
                     (if further (each-way (cdr patterns) further use))))
                 facts))))

; Applies each rule, again and again as long as one draws a new fact.
(defun chain ()
  (let ((new t))
    (while new
      (setq new nil)
      (mapc (lambda (rule)
              (each-way (elt rule 1) '((found))
                (lambda (bindings)
                  (let ((fact (fill (elt rule 2) bindings)))
                    (if (not (known fact))
                        (progn
                          (setq facts (cons fact facts))
                          (setq new t)
                          (format (standard-output) "~A: ~A~%" (car rule) fact)))))))
            rules))))

(setq facts '((father abraham isaac) (mother sarah isaac)
              (father isaac jacob) (father isaac esau)))
(chain)
(format (standard-output) "~D facts~%" (length facts))
