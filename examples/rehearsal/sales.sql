-- Session 2: sells, by the first version, all the while.
CALL shop.sell(2, 1999);
COMMIT;
CALL shop.sell(4, 505);
COMMIT;
