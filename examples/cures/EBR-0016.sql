SELECT 1 FROM dual;
--> 1
--> 1 rows
ALTER SESSION SET EDITION = ora$base;
--> EBR-0016
COMMIT;
--> OK
ALTER SESSION SET EDITION = ora$base;
--> OK
