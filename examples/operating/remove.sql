-- In a later run: the second version goes, with all that was made in its edition. Columns stay.
DROP EDITION v2;
DROP EDITION v2 CASCADE;
