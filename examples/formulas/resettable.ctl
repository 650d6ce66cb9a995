AG EF x == 0
