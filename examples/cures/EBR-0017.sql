CREATE TABLE t (id NUMBER(3) PRIMARY KEY, v VARCHAR2(4) NOT NULL, n NUMBER(3));
--> OK
INSERT INTO t VALUES (1, 'a', 10);
--> 1 rows
INSERT INTO t VALUES (2, 'b', 20);
--> 1 rows
COMMIT;
--> OK
SELECT id, COUNT(*) FROM t;
--> EBR-0017
SELECT id FROM t;
--> 1
--> 2
--> 2 rows
SELECT COUNT(*) FROM t;
--> 2
--> 1 rows
SELECT COUNT(*) FROM t FOR UPDATE;
--> EBR-0017
SELECT id FROM t FOR UPDATE;
--> 1
--> 2
--> 2 rows
