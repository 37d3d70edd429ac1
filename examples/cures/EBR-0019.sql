CREATE TABLE t (id NUMBER(3) PRIMARY KEY, v VARCHAR2(4) NOT NULL, n NUMBER(3));
--> OK
INSERT INTO t VALUES (1, 'a', 10);
--> 1 rows
INSERT INTO t VALUES (2, 'b', 20);
--> 1 rows
COMMIT;
--> OK
INSERT INTO t VALUES (3, 'c');
--> EBR-0019
INSERT INTO t VALUES (3, 'c', 30);
--> 1 rows
INSERT INTO t (id, v) VALUES (4, 'd');
--> 1 rows
