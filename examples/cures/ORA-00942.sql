CREATE TABLE t (id NUMBER(3) PRIMARY KEY, v VARCHAR2(4) NOT NULL, n NUMBER(3));
--> OK
INSERT INTO t VALUES (1, 'a', 10);
--> 1 rows
INSERT INTO t VALUES (2, 'b', 20);
--> 1 rows
COMMIT;
--> OK
SELECT 1 FROM x;
--> ORA-00942
SELECT 1 FROM t;
--> 1
--> 1
--> 2 rows
CREATE EDITION v2;
--> OK
ALTER SESSION SET EDITION = v2;
--> OK
CREATE EDITIONING VIEW w AS SELECT id FROM t;
--> OK
ALTER SESSION SET EDITION = ora$base;
--> OK
SELECT id FROM w;
--> ORA-00942
ROLLBACK;
--> OK
ALTER SESSION SET EDITION = v2;
--> OK
SELECT id FROM w;
--> 1
--> 2
--> 2 rows
-- The table of a view is gone, and there again.
DROP TABLE t;
--> OK
SELECT id FROM w;
--> ORA-00942
CREATE TABLE t (id NUMBER(3));
--> OK
SELECT id FROM w;
--> 0 rows
