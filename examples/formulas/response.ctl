AG (request == 0 || AF grant == 1)
