A[x > 0 U x == 0]
