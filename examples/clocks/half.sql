select began, ended, c1, c2 from clock where c2 % 60 <> 0
