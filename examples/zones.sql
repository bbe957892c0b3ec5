-- The time zones of two countries, and what each covers.
SELECT c.name, z.tz, z.comments
FROM country c JOIN zone z ON z.country = c.code
WHERE c.name IN ('New Zealand', 'Portugal') AND z.comments IS NOT NULL
ORDER BY c.name, z.tz;
