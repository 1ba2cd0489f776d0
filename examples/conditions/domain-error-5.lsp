(convert 'a <integer>)
