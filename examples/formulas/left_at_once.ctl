EF y == 1
