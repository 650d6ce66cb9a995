AG (x >= 0 || AG x < 0)
