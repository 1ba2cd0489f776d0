(div 5 0)
