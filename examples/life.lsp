; Conway's game of life on a board whose edges meet: a string a row. A glider goes one square down and one to the right in four
; generations, and a blinker turns.

(defconstant start
  '(".#........"
    "..#......."
    "###......."
    ".........."
    ".........."
    "......###."
    ".........."
    ".........."))

; A board is a vector of strings, since its squares are asked for by index.
(defun board-of (rows) (convert rows <general-vector>))
(defun height (board) (length board))
(defun width (board) (length (elt board 0)))

; Whether a square lives. Behind an edge is the other one.
(defun is-alive (board row column)
  (char= (elt (elt board (mod row (height board))) (mod column (width board))) #\#))

; How many of the eight squares around one live.
(defun neighbours (board row column)
  (let ((count 0))
    (mapc (lambda (step)
            (if (is-alive board (+ row (car step)) (+ column (cdr step)))
                (setq count (+ count 1))))
          '((-1 . -1) (-1 . 0) (-1 . 1) (0 . -1) (0 . 1) (1 . -1) (1 . 0) (1 . 1)))
    count))

; With three neighbours a square lives, with two it stays what it is, else it is dead.
(defun next-square (board row column)
  (case (neighbours board row column)
    ((3) #\#)
    ((2) (elt (elt board row) column))
    (t #\.)))

(defun next-board (board)
  (let ((next (create-vector (height board))))
    (for ((row 0 (+ row 1)))
         ((= row (height board)) next)
      (let ((squares (create-string (width board))))
        (for ((column 0 (+ column 1)))
             ((= column (width board)))
          (setf (elt squares column) (next-square board row column)))
        (setf (elt next row) squares)))))

(defun show (board generation)
  (format (standard-output) "generation ~D~%" generation)
  (mapc (lambda (row) (format (standard-output) "~A~%" row)) (convert board <list>)))

(for ((generation 0 (+ generation 1))
      (board (board-of start) (next-board board)))
     ((= generation 4) (show board generation))
  (if (< generation 2) (show board generation)))
