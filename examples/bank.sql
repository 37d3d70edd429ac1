-- A bank: its tables, and the view that all code goes by.
CREATE TABLE account_t (
  id NUMBER(9) PRIMARY KEY,
  owner VARCHAR2(30) NOT NULL,
  balance NUMBER(12) NOT NULL,
  tier VARCHAR2(10)
);
CREATE TABLE audit_t (what VARCHAR2(60));
CREATE EDITIONING VIEW account AS SELECT id, owner, balance FROM account_t;

-- A transaction: what came behind the savepoint is undone, and a refused statement changes nothing.
INSERT INTO account VALUES (1, 'Ada', 500);
INSERT INTO account VALUES (2, 'Grace', 300);
SAVEPOINT two;
INSERT INTO account VALUES (3, 'Alan', 10);
UPDATE account SET balance = balance * 2;
ROLLBACK TO two;
INSERT INTO account VALUES (2, 'Edsger', 70);
INSERT INTO account (id, balance) VALUES (3, 70);
COMMIT;
SELECT * FROM account ORDER BY balance;

-- The code. What it writes to the audit stays, whatever becomes of the transfer.
CREATE PACKAGE bank IS
  too_little EXCEPTION;
  PRAGMA EXCEPTION_INIT(too_little, -20001);
  PROCEDURE transfer(giver NUMBER, taker NUMBER, amount NUMBER);
END bank;
/
CREATE PACKAGE BODY bank IS
  PROCEDURE note(what VARCHAR2) IS
    PRAGMA AUTONOMOUS_TRANSACTION;
  BEGIN
    INSERT INTO audit_t VALUES (what);
    COMMIT;
  END note;

  PROCEDURE transfer(giver NUMBER, taker NUMBER, amount NUMBER) IS
    rest NUMBER;
  BEGIN
    note(giver || ' to ' || taker || ': ' || amount);
    UPDATE account SET balance = balance - amount WHERE id = giver;
    UPDATE account SET balance = balance + amount WHERE id = taker;
    SELECT balance INTO rest FROM account WHERE id = giver;
    IF rest < 0 THEN
      RAISE too_little;
    END IF;
  END transfer;
END bank;
/
CREATE PROCEDURE report IS
  CURSOR accounts IS SELECT owner, balance FROM account ORDER BY owner;
BEGIN
  FOR a IN accounts LOOP
    DBMS_OUTPUT.PUT_LINE(a.owner || ' has ' || a.balance);
  END LOOP;
END;
/
CALL bank.transfer(1, 2, 150);
COMMIT;
CALL bank.transfer(1, 2, 1000);
CALL report();
SELECT what FROM audit_t;

-- The upgrade: a new edition whose view shows one column more, and a new report on it.
CREATE EDITION v2;
ALTER SESSION SET EDITION = v2;
CREATE OR REPLACE EDITIONING VIEW account AS SELECT id, owner, balance, tier FROM account_t;
CREATE OR REPLACE PROCEDURE report IS
BEGIN
  FOR a IN (SELECT owner, balance, NVL(tier, 'no tier') AS tier FROM account ORDER BY owner) LOOP
    DBMS_OUTPUT.PUT_LINE(a.owner || ', ' || a.tier || ', has ' || a.balance);
  END LOOP;
END;
/
UPDATE account SET tier = 'gold' WHERE balance > 400;
CALL bank.transfer(2, 1, 50);
CALL report();
ALTER SESSION SET EDITION = ora$base;
COMMIT;
ALTER SESSION SET EDITION = ora$base;
CALL report();
