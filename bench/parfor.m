% A loop over workers on a row of 2,000 cells, 50 times: 100,000 iterations.
A = zeros(1, 2000);
for round = 1:50
  parfor i = 1:2000, A(i) = A(i) + mod(i, 7); end
end
disp(sum(A))
