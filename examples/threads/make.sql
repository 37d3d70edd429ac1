-- The first version of a shop with two tills. A price is in cents. All code goes by the view.
CREATE TABLE sale_t (id NUMBER(9) PRIMARY KEY, till VARCHAR2(10), price NUMBER(9), eur NUMBER(9), ct NUMBER(2));
CREATE EDITIONING VIEW sale AS SELECT id, till, price FROM sale_t;
CREATE PROCEDURE sell(i NUMBER, t VARCHAR2, p NUMBER) IS
BEGIN INSERT INTO sale VALUES (i, t, p); COMMIT; END;
/
