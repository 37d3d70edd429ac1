SELECT 1 FROM dual;
--> 1
--> 1 rows
CREATE TABLE u (id NUMBER(3), v VARCHAR2(4000));
--> OK
DECLARE x VARCHAR2(4000) := 'a'; BEGIN FOR i IN 1 .. 11 LOOP x := x || x; END LOOP; x := x || SUBSTR(x, 1, 1952); FOR i IN 1 .. 100 LOOP INSERT INTO u VALUES (i, x); END LOOP; COMMIT; END;
/
--> OK
-- A sum in place of a loop over the rows, and a loop over fewer columns, carry little.
DECLARE n NUMBER; BEGIN FOR i IN 1 .. 100 LOOP SELECT SUM(LENGTH(v)) INTO n FROM u; END LOOP; DBMS_OUTPUT.PUT_LINE(n); END;
/
--> 400000
--> OK
DECLARE n NUMBER := 0; BEGIN FOR i IN 1 .. 100 LOOP FOR r IN (SELECT id FROM u) LOOP n := n + 1; END LOOP; END LOOP; DBMS_OUTPUT.PUT_LINE(n); END;
/
--> 10000
--> OK
DECLARE n NUMBER := 0; BEGIN FOR i IN 1 .. 100 LOOP FOR r IN (SELECT v FROM u) LOOP n := n + 1; END LOOP; END LOOP; DBMS_OUTPUT.PUT_LINE(n); END;
/
--> EBR-0011
