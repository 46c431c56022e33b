% Conway's game of life on a board that wraps round: a glider after four steps is one place further.
board = zeros(6, 6);
board(1, 2) = 1; board(2, 3) = 1; board(3, 1:3) = 1;
show(board)
for step = 1:4
  board = next(board);
end
show(board)
disp(isequal(board(2:4, 2:4), [0 1 0; 0 0 1; 1 1 1]))

function board = next(board)
  [rows, cols] = size(board);
  up = [2:rows, 1];
  down = [rows, 1:rows - 1];
  left = [2:cols, 1];
  right = [cols, 1:cols - 1];
  around = board(up, :) + board(down, :) + board(:, left) + board(:, right) ...
    + board(up, left) + board(up, right) + board(down, left) + board(down, right);
  board = int64(around == 3 | (board & around == 2));
end

function show(board)
  letters = '.#';
  for r = 1:size(board, 1)
    disp(letters(board(r, :) + 1))
  end
  fprintf('\n')
end
