CREATE TABLE t (id NUMBER(3) PRIMARY KEY, v VARCHAR2(4) NOT NULL, n NUMBER(3));
--> OK
INSERT INTO t VALUES (1, 'a', 10);
--> 1 rows
INSERT INTO t VALUES (2, 'b', 20);
--> 1 rows
COMMIT;
--> OK
SELECT id FROM t a, t b;
--> EBR-0018
SELECT a.id FROM t a, t b;
--> 1
--> 1
--> 2
--> 2
--> 4 rows
SELECT 1 FROM t, t;
--> EBR-0018
