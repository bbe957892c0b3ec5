-- Each visit beside its customer: just the files of the customers' numbers are loaded.
SELECT name, day FROM cust, visit WHERE id = who
