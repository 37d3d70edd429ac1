-- The other till.
BEGIN
  FOR i IN 1001 .. 1100 LOOP
    sell(i, 'south', 1999);
  END LOOP;
END;
/
SELECT COUNT(*), SUM(price) FROM sale WHERE till = 'south';
