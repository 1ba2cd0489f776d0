(div 1 0)
