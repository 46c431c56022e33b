% Tables as matrices: a row and a column make a table, and sums go along either.
days = 1:4;
rates = [3; 10; 25];
earned = rates .* days;          % each rate on each day
disp(earned)

perDay = sum(earned);            % down each column
perRate = sum(earned, 2);        % along each row
disp([earned, perRate; perDay, sum(perDay)])

[best, where] = max(earned(:, end));
fprintf('rate %d earns %d on the last day\n', rates(where), best)

earned(earned < 20) = 0;         % what is too small counts for nothing
earned(:, 1) = [];               % and the first day isn't paid
disp(earned')
