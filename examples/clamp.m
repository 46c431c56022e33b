top = 9223372036854775807;
disp(top)
disp(top + 1)
disp(top + 1 - 1)
disp(top - 1 + 1)
bottom = 0 - top - 1;
disp(bottom)
disp(bottom - 1)
disp(bottom - 1 + 1)
disp(top + bottom)
