% A loop over workers that reads and writes each cell of a row: 1,000,000 iterations.
A = zeros(1, 1000000);
parfor i = 1:1000000
  A(i) = A(i) + mod(i, 7);
end
disp(sum(A))
