A[y == 0 W x <= 0]
