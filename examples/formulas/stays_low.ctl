EG y == 0
