; What has to be put back is put back by a cleanup, whether the work ends by a value, by an exit or by an error.
(defglobal balance 100)

; Does the work, and where it does not end by a value, the balance is what it was before.
(defun all-or-nothing (work)
  (let ((before balance) (done nil))
    (unwind-protect (progn (funcall work) (setq done t))
      (if (not done) (setq balance before)))))

(defun pay (amount)
  (if (> amount balance) (error "only ~D left" balance))
  (setq balance (- balance amount)))

(all-or-nothing (lambda () (pay 30)))
(format (standard-output) "~D~%" balance)
(ignore-errors (all-or-nothing (lambda () (pay 50) (pay 50))))
(format (standard-output) "~D~%" balance)
