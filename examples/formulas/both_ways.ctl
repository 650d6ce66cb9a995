AX AX x > 0
