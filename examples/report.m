% A report in columns, a bar chart, and texts that are put together.
counts = [12 7 105];
for k = 1:numel(counts)
  fprintf('%-8s|%5d|%05d\n', nameOf(k), counts(k), counts(k));
end

total = sum(counts);
line = ['total ' num2str(total) ' in ' num2str(numel(counts)) ' kinds'];
disp(line)
disp(repmat('_', 1, length(line)))

shares = counts * 100 / total;   % whole percents, rounded
for k = 1:numel(counts)
  fprintf('%3d%% %s\n', shares(k), repmat('*', 1, shares(k) / 5));
end

fprintf('%d,', counts(1:end - 1));
fprintf('%d\n', counts(end));
disp(['counts = ' mat2str(counts) ';'])
disp(upper('done'))

function name = nameOf(k)
  switch k
    case 1
      name = 'apples';
    case 2
      name = 'pears';
    otherwise
      name = 'cherries';
  end
end

function text = upper(text)
  small = text >= 'a' & text <= 'z';
  text(small) = text(small) - 32;
end
