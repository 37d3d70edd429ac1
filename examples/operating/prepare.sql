-- Step 2: the second version, in an edition of its own. Its triggers fire for nobody yet.
CREATE EDITION v2;
ALTER SESSION SET EDITION = v2;
CREATE OR REPLACE EDITIONING VIEW sale AS SELECT id, eur, ct FROM sale_t;
CREATE OR REPLACE PACKAGE BODY shop IS
  PROCEDURE sell(i NUMBER, p NUMBER) IS
  BEGIN
    INSERT INTO sale (id, eur, ct) VALUES (i, TRUNC(p / 100), MOD(p, 100));
    COMMIT;
  END;

  PROCEDURE correct(i NUMBER, p NUMBER) IS
  BEGIN
    LOOP
      BEGIN
        UPDATE sale SET eur = TRUNC(p / 100), ct = MOD(p, 100) WHERE id = i;
        COMMIT;
        RETURN;
      EXCEPTION
        WHEN OTHERS THEN
          IF SQLCODE NOT IN (-54, -8177) THEN RAISE; END IF;
          ROLLBACK;
      END;
    END LOOP;
  END;
END;
/
CREATE TRIGGER sale_f BEFORE INSERT OR UPDATE ON sale_t FOR EACH ROW FORWARD CROSSEDITION DISABLE
BEGIN
  :NEW.eur := TRUNC(:NEW.price / 100);
  :NEW.ct := MOD(:NEW.price, 100);
END;
/
CREATE TRIGGER sale_r BEFORE INSERT OR UPDATE ON sale_t FOR EACH ROW REVERSE CROSSEDITION DISABLE
BEGIN
  IF :NEW.eur IS NOT NULL THEN :NEW.price := :NEW.eur * 100 + :NEW.ct; END IF;
END;
/
