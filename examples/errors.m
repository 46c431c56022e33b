% Errors that are caught, and what stays of the work that was cut off.
done = [];
for n = [10 0 4 -1 3]
  try
    done(end + 1) = root(n);
    fprintf('root of %d is %d\n', n, done(end));
  catch
    fprintf('%d has no whole root\n', n);
  end
end
done

readings = [12 15 11];
k = 0;
try
  while true
    k = k + 1;
    fprintf('reading %d: %d\n', k, readings(k));
  end
catch
  fprintf('there are %d readings\n', k - 1);
end

% the first argument may be any function
disp(attempt(@abs, -8))
disp(attempt(@root, -8))

function r = root(n)
  if n < 0
    error('negative');
  end
  r = 0;
  while (r + 1) ^ 2 <= n
    r = r + 1;
  end
  if r * r ~= n
    error('%d is no square', n);
  end
end

function y = attempt(f, x)
  y = -1;
  try
    y = feval(f, x);
  catch
  end
end
