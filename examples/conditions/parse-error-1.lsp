(parse-number "4x")
