(error "x ~A" 1)
