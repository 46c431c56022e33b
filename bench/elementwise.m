% 20 elementwise expressions on 1,000,000 cells.
A = 1:1000000;
B = A;
for i = 1:20
  B = B + A .* 2 - i;
end
disp(sum(B))
