EG x > 0
