(elt '(a b) 2)
