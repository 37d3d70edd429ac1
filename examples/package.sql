CREATE PACKAGE counter IS step NUMBER := 1; PROCEDURE bump; END;
/
CREATE PACKAGE BODY counter IS
  n NUMBER := 0;
  PROCEDURE bump IS BEGIN n := n + step; DBMS_OUTPUT.PUT_LINE('now ' || n); END;
END;
/
CALL counter.bump();
BEGIN counter.step := 10; counter.bump(); END;
/
CREATE EDITION v2;
ALTER SESSION SET EDITION = v2;
CREATE OR REPLACE PACKAGE BODY counter IS
  n NUMBER := 1000;
  PROCEDURE bump IS BEGIN n := n + step; DBMS_OUTPUT.PUT_LINE('then ' || n); END;
END;
/
CALL counter.bump();
ALTER SESSION SET EDITION = ora$base;
CALL counter.bump();
