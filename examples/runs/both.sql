select began, ended, c2 from runs union all select began, ended, c1 from packages
