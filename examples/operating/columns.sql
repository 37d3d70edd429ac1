-- Step 1, while no transaction is open on the table.
ALTER TABLE sale_t ADD (eur NUMBER(7));
ALTER TABLE sale_t ADD (ct NUMBER(2));
