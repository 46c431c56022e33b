% A scalar loop with a remainder and a choice.
s = 0;
for i = 1:1000000
  if mod(i, 3) == 0
    s = s + i;
  end
end
disp(s)
