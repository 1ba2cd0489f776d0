; Rows and columns: a vector of vectors, since an array has one index here.
(defun create-grid (rows columns item)
  (let ((grid (create-vector rows)))
    (for ((row 0 (+ row 1)))
         ((= row rows) grid)
      (setf (aref grid row) (create-vector columns item)))))

(defun cell (grid row column) (aref (aref grid row) column))
(defun set-cell (value grid row column) (setf (aref (aref grid row) column) value))

(let ((grid (create-grid 2 3 0)))
  (for ((row 0 (+ row 1)))
       ((= row 2))
    (for ((column 0 (+ column 1)))
         ((= column 3))
      (set-cell (* (+ row 1) (+ column 1)) grid row column)))
  (format (standard-output) "~S, and ~D~%" grid (cell grid 1 2)))
