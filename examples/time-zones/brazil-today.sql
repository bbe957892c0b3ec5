-- What holds in Brazil's zones today: the era that has no end.
SELECT z.tz, e."offset", e.format, e.rule
FROM era e, zone z, country c
WHERE e.tz = z.tz AND z.country = c.code AND c.name = 'Brazil' AND e.until_year IS NULL
ORDER BY e."offset", z.tz;
