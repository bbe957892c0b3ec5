-- Lists of many literals. Of which years do the rules of four sorts of savings begin in the listed ones?
SELECT r.rule, r.from_year, r.save
FROM rule r
WHERE r.from_year IN (1910, 1925, 1929, 1930, NULL, 1935, 1958, 1961, 1910, 1000)
ORDER BY r.from_year, r.rule, r.to_year, r.month, r.day;
-- A list of texts, which a look-up of zones may answer.
SELECT c.name, z.tz
FROM country c, zone z
WHERE z.country = c.code AND c.code IN ('AD', 'PT', 'NZ', 'FR', 'zz', '', 'MX', 'CL', 'PT', 'ES')
ORDER BY z.tz;
-- What is in no list, and has a year at all.
SELECT e.tz, e.until_year
FROM era e
WHERE e.until_year > 2015 AND e.until_year NOT IN (2014, 2016, 2017, 2018, 2019, 2021, 2022, 2023, 2024)
ORDER BY e.tz, e.until_year;
-- Nothing is surely outside of a list with NULL.
SELECT e.tz
FROM era e
WHERE e.until_year NOT IN (2014, 2016, 2017, 2018, NULL, 2019, 2021, 2022, 2023);
