-- The rules of each era of Berlin that began before the era's end.
SELECT e.seq, e.format, r.from_year, r.to_year, r.month, r.day, r.save
FROM era e JOIN rule r ON r.rule = e.rule
WHERE e.tz = 'Europe/Berlin' AND (e.until_year IS NULL OR r.from_year <= e.until_year)
ORDER BY e.seq, r.from_year, r.month;
