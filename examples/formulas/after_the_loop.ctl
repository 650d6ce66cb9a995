AG (!exit || i >= n)
