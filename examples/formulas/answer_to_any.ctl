AX EX x + y == 7
