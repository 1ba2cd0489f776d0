(error "no ~D" 4)
