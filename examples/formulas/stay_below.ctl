E[x < 5 U y == 3]
