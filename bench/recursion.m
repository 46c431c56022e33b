% A function that calls itself, 57,313 calls.
disp(fib(22))

function y = fib(n)
  if n < 2
    y = n;
  else
    y = fib(n - 1) + fib(n - 2);
  end
end
