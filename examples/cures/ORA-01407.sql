CREATE TABLE t (id NUMBER(3) PRIMARY KEY, v VARCHAR2(4) NOT NULL, n NUMBER(3));
--> OK
INSERT INTO t VALUES (1, 'a', 10);
--> 1 rows
INSERT INTO t VALUES (2, 'b', 20);
--> 1 rows
COMMIT;
--> OK
UPDATE t SET v = NULL;
--> ORA-01407
UPDATE t SET v = '';
--> ORA-01407
UPDATE t SET v = 'c';
--> 2 rows
