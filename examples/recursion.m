% Functions that call themselves: a common divisor, binary digits, a search, all orders of three numbers.
disp(gcdOf(1071, 462))
disp(binary(37))
disp(search([2 3 5 7 11 13 17 19], 13))
show([], 1:3)

function g = gcdOf(a, b)
  if b == 0
    g = a;
  else
    g = gcdOf(b, mod(a, b));
  end
end

function text = binary(n)
  if n < 2
    text = num2str(n);
  else
    text = [binary(idivide(n, 2)), num2str(mod(n, 2))];
  end
end

% the place of a value in an increasing row, 0 where it isn't there
function k = search(x, value, low, high)
  if nargin < 3
    low = 1;
    high = numel(x);
  end
  if low > high
    k = 0;
    return
  end
  middle = idivide(low + high, 2);
  if x(middle) == value
    k = middle;
  elseif x(middle) < value
    k = search(x, value, middle + 1, high);
  else
    k = search(x, value, low, middle - 1);
  end
end

% all orders of what is left, behind what is chosen
function show(chosen, left)
  if isempty(left)
    disp(chosen)
    return
  end
  for k = 1:numel(left)
    rest = left;
    rest(k) = [];
    show([chosen, left(k)], rest)
  end
end
