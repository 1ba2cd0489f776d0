; Does a piece of work again where it fails, so many times at most. The last failure is passed on.
(defun retry (times work)
  (block done
    (for ((left times (- left 1)))
         ((= left 1) (funcall work))
      (block failed
        (with-handler (lambda (condition) (return-from failed nil))
          (return-from done (funcall work)))))))

; Work that fails twice.
(defglobal tries 0)
(defun work ()
  (setq tries (+ tries 1))
  (format (standard-output) "try ~D~%" tries)
  (if (< tries 3) (error "not yet") 'worked))

(format (standard-output) "~A~%" (retry 5 #'work))
(setq tries 0)
(format (standard-output) "~A~%" (ignore-errors (retry 2 #'work)))
