; Matrices of integers: a vector of rows, each of which is a vector. Products and powers, with which Fibonacci's numbers are found
; in few steps, and determinants without a fraction on the way.

(defun make-matrix (rows columns element)
  (let ((matrix (create-vector rows)))
    (for ((i 0 (+ i 1)))
         ((= i rows) matrix)
      (let ((row (create-vector columns)))
        (setf (aref matrix i) row)
        (for ((j 0 (+ j 1)))
             ((= j columns))
          (setf (aref row j) (funcall element i j)))))))

(defun rows-of (matrix) (length matrix))
(defun columns-of (matrix) (length (aref matrix 0)))

; The element of a matrix, and its setter: (setf (entry m i j) x).
(defgeneric entry (matrix i j))
(defmethod entry ((matrix <general-vector>) i j) (aref (aref matrix i) j))
(defgeneric (setf entry) (value matrix i j))
(defmethod (setf entry) (value (matrix <general-vector>) i j) (setf (aref (aref matrix i) j) value))

(defun transpose (matrix)
  (make-matrix (columns-of matrix) (rows-of matrix) (lambda (i j) (entry matrix j i))))

(defun product (a b)
  (if (/= (columns-of a) (rows-of b))
      (error "~D columns do not go with ~D rows" (columns-of a) (rows-of b)))
  (make-matrix (rows-of a) (columns-of b)
    (lambda (i j)
      (for ((k 0 (+ k 1))
            (sum 0 (+ sum (* (entry a i k) (entry b k j)))))
           ((= k (rows-of b)) sum)))))

; A power with an exponent above 0, by squaring: a few products for each binary digit of the exponent.
(defun power (matrix exponent)
  (cond ((= exponent 1) matrix)
        ((= (mod exponent 2) 1) (product matrix (power matrix (- exponent 1))))
        (t (let ((half (power matrix (div exponent 2))))
             (product half half)))))

; The determinant by Bareiss: each division has no rest. Rows are changed where a pivot is 0, which changes the sign.
(defun determinant (matrix)
  (let* ((size (rows-of matrix)) (sign 1) (before 1)
         (work (make-matrix size size (lambda (i j) (entry matrix i j)))))
    (block zero
      (for ((k 0 (+ k 1)))
           ((= k (- size 1)) (* sign (entry work k k)))
        (let ((pivot (pivot-row work k)))
          (cond ((null pivot) (return-from zero 0))
                ((/= pivot k)
                 (let ((row (aref work k)))
                   (setf (aref work k) (aref work pivot))
                   (setf (aref work pivot) row)
                   (setq sign (- sign))))))
        (for ((i (+ k 1) (+ i 1)))
             ((= i size))
          (for ((j (+ k 1) (+ j 1)))
               ((= j size))
            (setf (entry work i j)
                  (div (- (* (entry work i j) (entry work k k)) (* (entry work i k) (entry work k j)))
                       before))))
        (setq before (entry work k k))))))

; The first row from k on whose element in column k is not 0, nil where there is none.
(defun pivot-row (matrix k)
  (for ((i k (+ i 1)) (end (rows-of matrix)))
       ((or (= i end) (/= (entry matrix i k) 0)) (if (= i end) nil i))))

(defglobal a #(#(1 2 3) #(4 5 6)))
(format (standard-output) "~S~%~S~%" (transpose a) (product a (transpose a)))
(format (standard-output) "Fibonacci of 40: ~D~%" (entry (power #(#(1 1) #(1 0)) 40) 0 1))
(format (standard-output) "determinants ~D ~D ~D~%"
        (determinant #(#(2 0 1) #(1 3 2) #(1 1 4)))
        (determinant #(#(0 2 1) #(3 1 0) #(1 4 5)))
        (determinant (product (transpose a) a)))
(catch 'failed
  (with-handler (lambda (condition) (report-condition condition (standard-output)) (throw 'failed nil))
    (product a a)))
(format (standard-output) "~%")
