E[lock == 1 W lock == 0]
