CREATE TABLE t (id NUMBER(3) PRIMARY KEY, v VARCHAR2(4) NOT NULL, n NUMBER(3));
--> OK
INSERT INTO t VALUES (1, 'a', 10);
--> 1 rows
INSERT INTO t VALUES (2, 'b', 20);
--> 1 rows
COMMIT;
--> OK
INSERT INTO t (id) VALUES (3);
--> ORA-01400
INSERT INTO t (id, v) VALUES (3, 'c');
--> 1 rows
-- A new version whose view hasn't the column: its reverse trigger gives the value.
ALTER TABLE t ADD (w VARCHAR2(4));
--> OK
CREATE EDITION v2;
--> OK
ALTER SESSION SET EDITION = v2;
--> OK
CREATE EDITIONING VIEW e AS SELECT id, w FROM t;
--> OK
INSERT INTO e VALUES (4, 'd');
--> ORA-01400
CREATE TRIGGER r BEFORE INSERT OR UPDATE ON t FOR EACH ROW REVERSE CROSSEDITION BEGIN :NEW.v := :NEW.w; END;
/
--> OK
INSERT INTO e VALUES (4, 'd');
--> 1 rows
