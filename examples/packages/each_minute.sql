select began / 60 * 60, began / 60 * 60 + 60, count(*), sum(c2) from installs group by began / 60
