EF x == 0
