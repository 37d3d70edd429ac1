-- A till: it sells a hundred things by the first version, and counts what it has sold.
BEGIN
  FOR i IN 1 .. 100 LOOP
    sell(i, 'north', 250);
  END LOOP;
END;
/
SELECT COUNT(*), SUM(price) FROM sale WHERE till = 'north';
