select began + 60, ended, c1, c2 from installs where ended > began + 60
