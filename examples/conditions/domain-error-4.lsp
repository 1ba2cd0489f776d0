(mapcar 'car '((1)))
