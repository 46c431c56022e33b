% 1,000,000 reads and as many writes of a variable.
x = 1;
y = 2;
for i = 1:500000
  y = x;
  x = y;
end
disp(x)
