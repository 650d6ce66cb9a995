AG x >= 0
