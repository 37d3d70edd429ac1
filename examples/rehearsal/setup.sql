-- Session 1, before the others: the first version of a shop. A price is in cents. All code goes by the view.
CREATE TABLE orders_t (id NUMBER(9) PRIMARY KEY, price NUMBER(12), eur NUMBER(9), ct NUMBER(2));
CREATE EDITIONING VIEW orders AS SELECT id, price FROM orders_t;
CREATE PACKAGE shop IS
  PROCEDURE sell(i NUMBER, p NUMBER); FUNCTION total RETURN NUMBER;
END;
/
CREATE PACKAGE BODY shop IS
  sold NUMBER := 0;
  PROCEDURE sell(i NUMBER, p NUMBER) IS
  BEGIN INSERT INTO orders (id, price) VALUES (i, p); sold := sold + 1; END;
  FUNCTION total RETURN NUMBER IS s NUMBER;
  BEGIN SELECT SUM(price) INTO s FROM orders; RETURN s; END;
END;
/
CALL shop.sell(1, 250);
COMMIT;
