select began, ended + 30, c1 from installs where c2 > 100000
