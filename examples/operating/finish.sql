-- Step 7, when there is no going back any more: nothing has to be kept in step.
DROP TRIGGER sale_f;
DROP TRIGGER sale_r;
