x = 7; disp(x + 5)
