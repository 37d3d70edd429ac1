SELECT ? FROM dual;
--> EBR-0020
SELECT '?' FROM dual;
--> ?
--> 1 rows
