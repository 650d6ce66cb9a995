EF x == 10
