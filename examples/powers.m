% Powers and sums, each column of the table made by its own iteration. The iterations write elements of their own and
% read what was there before the loop, so no order of them could change the table.
n = 8;
weights = n:-1:1;
parfor k = 1:n
  squares(k) = k ^ 2;
  cubes(k) = squares(k) * k;
  weighted(k) = sum(weights(1:k));
end
fprintf('%2d %3d %4d %3d\n', [1:n; squares; cubes; weighted])

% A loop of which an iteration fails leaves everything as it was, and says which iteration it was.
squares = squares(1:6);
try
  parfor k = 1:n, squares(k) = squares(k) + 1; end
catch
  disp('no seventh square')
end
disp(squares)
