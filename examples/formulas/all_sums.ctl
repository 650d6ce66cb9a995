AF (exit && x > 10)
