SELEC 1;
--> ORA-00900
SELECT 1 FROM dual;
--> 1
--> 1 rows
-- A unit without its line with a slash: it goes on to the next one.
CREATE PROCEDURE p IS BEGIN NULL; END;
CALL p();
/
--> ORA-00900
CREATE PROCEDURE p IS BEGIN NULL; END;
/
--> OK
CALL p();
--> OK
