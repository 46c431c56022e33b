% 200,000 writes of a cell and as many reads.
A = zeros(1, 200000);
for i = 1:200000
  A(i) = i;
end
s = 0;
for i = 1:200000
  s = s + A(i);
end
disp(s)
