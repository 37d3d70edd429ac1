-- The second version, which has euros and cents in columns of their own. It is made while the tills sell, and sells too. Its triggers
-- are enabled when all else is there.
CREATE EDITION v2;
ALTER SESSION SET EDITION = v2;
CREATE OR REPLACE EDITIONING VIEW sale AS SELECT id, till, eur, ct FROM sale_t;
CREATE OR REPLACE PROCEDURE sell(i NUMBER, t VARCHAR2, p NUMBER) IS
BEGIN INSERT INTO sale VALUES (i, t, TRUNC(p / 100), MOD(p, 100)); COMMIT; END;
/
CREATE TRIGGER sale_f BEFORE INSERT OR UPDATE ON sale_t FOR EACH ROW FORWARD CROSSEDITION DISABLE
BEGIN :NEW.eur := TRUNC(:NEW.price / 100); :NEW.ct := MOD(:NEW.price, 100); END;
/
CREATE TRIGGER sale_r BEFORE INSERT OR UPDATE ON sale_t FOR EACH ROW REVERSE CROSSEDITION DISABLE
BEGIN :NEW.price := :NEW.eur * 100 + :NEW.ct; END;
/
ALTER TRIGGER sale_f ENABLE;
ALTER TRIGGER sale_r ENABLE;
CALL sell(2001, 'new', 505);
SELECT * FROM sale WHERE till = 'new';
