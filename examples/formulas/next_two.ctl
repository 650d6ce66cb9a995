AG (ask == 0 || answer == 1 || AX (answer == 1 || AX answer == 1))
