-- Rules without an end whose letter is known, and isn't S.
SELECT rule, from_year, to_year, month, letter
FROM rule
WHERE to_year IS NULL AND NOT (letter = 'S')
ORDER BY rule, from_year;
