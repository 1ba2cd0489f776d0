(undefined-function-name 3)
