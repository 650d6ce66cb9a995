AF b == 1
