-- Rules of one year of the forties that save neither nothing nor an hour.
SELECT rule, from_year, month, day, save
FROM rule
WHERE from_year = to_year AND from_year BETWEEN 1940 AND 1949 AND save NOT IN ('0', '1')
ORDER BY from_year, rule, month;
