SELECT 'it''s' FROM dual;
--> it's
--> 1 rows
SELECT 'x FROM dual;
--> EBR-0021
