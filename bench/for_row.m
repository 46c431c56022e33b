% The same as a sequential loop.
A = zeros(1, 1000000);
for i = 1:1000000
  A(i) = A(i) + mod(i, 7);
end
disp(sum(A))
