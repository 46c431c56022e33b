% The primes up to 50, by crossing out the multiples of each prime.
n = 50;
prime = true(1, n);
prime(1) = false;
p = 2;
while p * p <= n
  if prime(p)
    prime(p * p:p:n) = false;
  end
  p = p + 1;
end
list = find(prime);
disp(list)
fprintf('%d primes up to %d, the last is %d\n', numel(list), n, list(end))
