select began, ended, c1, c3 from bid where c1 in (1007, 1020, 2001, 2019, 2087)
