"""Small boards that parts of the page's tests share."""
TENTS = "2x2:_c,0,1,1,0"
SOLO = "2x2:1b4i3_2a"  # the rows 1 2 3 4, 3 4 1 2, 2 1 4 3, 4 3 2 1
WHITE = "5x5://///////"  # Pattern, all white
ROW = "5x1:1/1//1/1/2.2"
