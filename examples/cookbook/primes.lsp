; The sieve of Eratosthenes: what stays in the vector below a limit is prime.
(defun primes (limit)
  (let ((is-prime (create-vector limit t)) (found nil))
    (for ((n 2 (+ n 1)))
         ((= n limit) (reverse found))
      (if (aref is-prime n)
          (progn
            (setq found (cons n found))
            (for ((multiple (* 2 n) (+ multiple n)))
                 ((>= multiple limit))
              (setf (aref is-prime multiple) nil)))))))

(format (standard-output) "~S~%" (primes 30))
