-- Step 6: sessions of later runs begin in the second version.
ALTER DATABASE DEFAULT EDITION = v2;
