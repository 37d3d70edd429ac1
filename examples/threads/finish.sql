-- Behind the tills: what they sold before the new version had its trigger gets its euros and cents.
ALTER SESSION SET EDITION = v2;
APPLY TRIGGER sale_f;
COMMIT;
SELECT COUNT(*), SUM(eur * 100 + ct) FROM sale;
SELECT * FROM sale WHERE id IN (1, 1100, 2001) ORDER BY id;
