EX EX x == 2
