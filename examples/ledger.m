balance = 0;

salary = 2800;
rent = 950; food = 410;
balance = balance + salary - rent - food;
disp(balance)

bonus = 300; repair = 1725;
balance = balance + salary + bonus - rent - food - repair;
disp(balance)

salary = 0; refund = 125; holiday = 1000;
balance = balance + salary + refund - rent - food - holiday;
disp(balance)
