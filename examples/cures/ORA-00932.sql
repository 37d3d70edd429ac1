SELECT 1 + 'a' FROM dual;
--> ORA-00932
SELECT 1 + TO_NUMBER('2') FROM dual;
--> 3
--> 1 rows
SELECT 'a' FROM dual WHERE TO_CHAR(1) = '1';
--> a
--> 1 rows
