select began, ended, 'summer' from clock where c1 = 'Berlin' and c2 > 60
