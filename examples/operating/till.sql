-- The first version at work: it sells, and corrects prices.
DECLARE
  last NUMBER;
BEGIN
  SELECT MAX(id) INTO last FROM sale;
  COMMIT;
  FOR i IN 1 .. 50 LOOP
    shop.sell(last + i, 250);
    shop.correct(i, 1999);
  END LOOP;
  DBMS_OUTPUT.PUT_LINE('sold ' || 50);
END;
/
