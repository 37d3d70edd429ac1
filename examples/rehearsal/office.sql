-- Session 3: corrects a price, and in the end asks for the total, by the first version too.
UPDATE orders SET price = 300 WHERE id = 1;
COMMIT;
BEGIN DBMS_OUTPUT.PUT_LINE('total ' || shop.total); END;
/
