-- The other names of zones, by country.
SELECT l.alias, l.target, c.name
FROM link l JOIN zone z ON z.tz = l.target JOIN country c ON c.code = z.country
ORDER BY c.name DESC, l.alias;
