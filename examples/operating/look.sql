-- How many sales there are, and what they come to by either version's columns.
SELECT COUNT(*), SUM(price), SUM(eur * 100 + ct) FROM sale_t;
