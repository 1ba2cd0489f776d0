; Accounts: what is not there is not paid. An own condition carries the account and the sum that is wanting, a method of
; report-condition says it in words, and a handler may lend the sum, with which the withdrawal goes on.

(defclass <account> ()
  ((owner :initarg owner :reader owner-of)
   (balance :initarg balance :initform 0 :accessor balance-of)))

; An account that costs a fee for each withdrawal.
(defclass <cheap-account> (<account>)
  ((fee :initarg fee :initform 1 :reader fee-of)))

(defclass <overdrawn> (<error>)
  ((account :initarg account :reader account-of)
   (wanting :initarg wanting :reader wanting-of)))

(defmethod report-condition ((condition <overdrawn>) stream)
  (format stream "~A is short of ~D" (owner-of (account-of condition)) (wanting-of condition)))

(defun deposit (account amount)
  (setf (balance-of account) (+ (balance-of account) amount)))

; Pays an amount from an account. The condition can be continued: with the sum that is lent.
(defgeneric withdraw (account amount))

(defmethod withdraw ((account <account>) amount)
  (let ((wanting (- amount (balance-of account))))
    (if (> wanting 0)
        (deposit account
                 (signal-condition (create (class <overdrawn>) 'account account 'wanting wanting) t)))
    (setf (balance-of account) (- (balance-of account) amount))))

(defmethod withdraw :after ((account <cheap-account>) amount)
  (deposit account (- (fee-of account))))

; Both accounts change, or none: what was paid is given back where the other account does not take it.
(defun transfer (from to amount)
  (let ((done nil))
    (withdraw from amount)
    (unwind-protect (progn (assure <account> to) (deposit to amount) (setq done t))
      (if (not done) (deposit from amount)))))

; Does a piece of work, and reports the error that ends it.
(defun attempt (title work)
  (format (standard-output) "~A: " title)
  (block attempt
    (with-handler
      (lambda (condition)
        (report-condition condition (standard-output))
        (format (standard-output) "~%")
        (return-from attempt nil))
      (format (standard-output) "~S~%" (funcall work)))))

(defglobal ann (create (class <account>) 'owner "Ann" 'balance 50))
(defglobal bob (create (class <cheap-account>) 'owner "Bob" 'fee 2))

(attempt "Ann pays 20" (lambda () (withdraw ann 20)))
(attempt "Ann pays 40" (lambda () (withdraw ann 40)))
(attempt "Bob gets 25" (lambda () (transfer ann bob 25)))
(attempt "Bob pays 10" (lambda () (withdraw bob 10) (balance-of bob)))
(attempt "nobody gets 5" (lambda () (transfer ann 'nobody 5)))
(format (standard-output) "Ann ~D, Bob ~D~%" (balance-of ann) (balance-of bob))

; A bank that lends: its handler continues with what is wanting.
(attempt "Ann pays 40 and borrows"
         (lambda ()
           (with-handler (lambda (condition) (continue-condition condition (wanting-of condition)))
             (withdraw ann 40))))
