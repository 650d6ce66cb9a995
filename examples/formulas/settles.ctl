AF AG x == 1
