% 20,000 appends of a cell.
A = [];
for i = 1:20000
  A(end + 1) = i;
end
disp(sum(A))
