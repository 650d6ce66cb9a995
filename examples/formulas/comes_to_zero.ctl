AF x == 0
