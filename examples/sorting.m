% Insertion sort, step by step, and what the language's own sort says.
x = [31 4 15 9 26 5];
y = insertion(x);
disp(y)
disp(isequal(y, sort(x)))

[down, places] = sort(x, 'descend');
disp([down; places])

words = ['pear'; 'plum'; 'kiwi'];
order = bySecond(words);
disp(words(order, :))

function x = insertion(x)
  for k = 2:numel(x)
    value = x(k);
    j = k - 1;
    while j > 0 && x(j) > value
      x(j + 1) = x(j);
      j = j - 1;
    end
    x(j + 1) = value;
    fprintf('%2d: %s\n', value, mat2str(x))
  end
end

function order = bySecond(words)
  % rows in the order of their second letters
  [~, order] = sort(words(:, 2));
end
