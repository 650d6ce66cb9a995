AG i <= 10
