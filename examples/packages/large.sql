select began, ended, c1, c2 / 1024 from installs where c2 > 100000
