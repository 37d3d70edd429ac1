-- The first version of a shop. A price is in cents. All code goes by the view. A change of a row that another session holds, or has
-- changed, is refused at once, and is taken again: without that the batches of step 4 would stop it.
CREATE TABLE sale_t (id NUMBER(9) PRIMARY KEY, price NUMBER(9));
CREATE EDITIONING VIEW sale AS SELECT id, price FROM sale_t;
CREATE PACKAGE shop IS
  PROCEDURE sell(i NUMBER, p NUMBER);
  PROCEDURE correct(i NUMBER, p NUMBER);
END;
/
CREATE PACKAGE BODY shop IS
  PROCEDURE sell(i NUMBER, p NUMBER) IS
  BEGIN
    INSERT INTO sale (id, price) VALUES (i, p);
    COMMIT;
  END;

  PROCEDURE correct(i NUMBER, p NUMBER) IS
  BEGIN
    LOOP
      BEGIN
        UPDATE sale SET price = p WHERE id = i;
        COMMIT;
        RETURN;
      EXCEPTION
        WHEN OTHERS THEN
          IF SQLCODE NOT IN (-54, -8177) THEN RAISE; END IF;
          ROLLBACK;
      END;
    END LOOP;
  END;
END;
/
BEGIN
  FOR i IN 1 .. 200 LOOP
    INSERT INTO sale (id, price) VALUES (i, 100 + i);
  END LOOP;
END;
/
COMMIT;
