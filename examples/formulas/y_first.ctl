!EG y >= 0
