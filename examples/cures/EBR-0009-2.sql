BEGIN DBMS_OUTPUT.PUT_LINE('one more'); END;
/
--> one more
--> OK
