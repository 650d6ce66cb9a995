AF (exit || AG x == 0)
