EF x >= 5
