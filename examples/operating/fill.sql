-- Step 4, in the old edition: each row is set to itself, a hundred in one transaction, and the forward trigger fills it in.
DECLARE
  low NUMBER := 1;
  last NUMBER;
BEGIN
  SELECT MAX(id) INTO last FROM sale;
  COMMIT;
  WHILE low <= last LOOP
    BEGIN
      UPDATE sale SET price = price WHERE id BETWEEN low AND low + 99;
      COMMIT;
      low := low + 100;
    EXCEPTION
      WHEN OTHERS THEN
        IF SQLCODE NOT IN (-54, -8177) THEN RAISE; END IF;
        ROLLBACK;
    END;
  END LOOP;
END;
/
