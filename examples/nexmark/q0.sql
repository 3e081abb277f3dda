select began, ended, c1, c2, c3 from bid
