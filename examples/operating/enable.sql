-- Step 3: from now on each version fills in what the other one reads.
ALTER SESSION SET EDITION = v2;
ALTER TRIGGER sale_f ENABLE;
ALTER TRIGGER sale_r ENABLE;
