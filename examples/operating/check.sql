-- Step 5: no row is left out, and the second version is tried and rolled back.
ALTER SESSION SET EDITION = v2;
DECLARE
  n NUMBER;
BEGIN
  SELECT COUNT(*) INTO n FROM sale_t WHERE eur IS NULL OR ct IS NULL OR price <> eur * 100 + ct;
  IF n > 0 THEN RAISE_APPLICATION_ERROR(-20001, n || ' rows differ'); END IF;
END;
/
INSERT INTO sale VALUES (9999, 12, 50);
SELECT price FROM sale_t WHERE id = 9999;
ROLLBACK;
