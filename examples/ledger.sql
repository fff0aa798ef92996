-- A double-entry ledger. Every entry moves money between accounts, and its postings add up to zero.
-- Amounts are cents: positive ones are debits, negative ones are credits.
CREATE TABLE account (id INT, name TEXT(20), least INT, balance INT, PRIMARY KEY (id))
  VALUES (100, 'cash', 0, 500000),
         (110, 'bank', -200000, 250000),
         (200, 'supplier', -9999999, -50000),
         (300, 'capital', -9999999, -700000),
         (400, 'sales', -9999999, 0),
         (500, 'rent', 0, 0);
CREATE TABLE entry (id INT, day INT, memo TEXT(40), PRIMARY KEY (id));
CREATE TABLE posting (entry INT, line INT, account INT, amount INT, PRIMARY KEY (entry, line));

-- Writes one entry with its postings. No account falls below its least balance: where one would, the whole entry is
-- taken back, with the balances that it had changed by then.
CREATE PROCEDURE post (:day INT, :memo TEXT(40), :lines ROWS (account INT, amount INT))
DECLARE :id = 0; DECLARE :line = 0; DECLARE :sum = 0; DECLARE :balance = 0; DECLARE :least = 0;
BEGIN
  SELECT MAX(id) INTO :id FROM entry;  -- keeps 0 where there is no entry yet
  SET :id = :id + 1;
  INSERT INTO entry VALUES (:id, :day, :memo);
  FOR :l IN :lines DO
    SET :line = :line + 1;
    SET :sum = :sum + :l.amount;
    UPDATE account SET balance = balance + :l.amount WHERE id = :l.account;
    IF :found = 0 THEN ROLLBACK 'no such account'; END IF;
    SELECT balance, least INTO :balance, :least FROM account WHERE id = :l.account;
    IF :balance < :least THEN ROLLBACK 'overdrawn'; END IF;
    INSERT INTO posting VALUES (:id, :line, :l.account, :l.amount);
  END FOR;
  IF :sum <> 0 THEN ROLLBACK 'debits and credits differ'; END IF;
  PRINT :id, :line;
END;

-- The postings of one account in the order in which they were made, with the balance before them.
CREATE PROCEDURE statement (:account INT)
DECLARE :balance = 0; DECLARE :moved = 0; DECLARE :memo = ''; DECLARE :name = '';
BEGIN
  SELECT balance, name INTO :balance, :name FROM account WHERE id = :account;
  IF :found = 0 THEN ROLLBACK 'no such account'; END IF;
  SELECT SUM(amount) INTO :moved FROM posting WHERE account = :account;
  PRINT :name, :balance - :moved;
  FOR :p IN SELECT entry, amount FROM posting WHERE account = :account ORDER BY entry, line DO
    SELECT memo INTO :memo FROM entry WHERE id = :p.entry;
    PRINT :p.entry, :memo, :p.amount;
  END FOR;
  PRINT :balance;
END;

-- All balances; they add up to zero, since the opening ones do and no entry changes the sum.
CREATE PROCEDURE trial_balance ()
DECLARE :sum = 0;
BEGIN
  FOR :a IN SELECT id, name, balance FROM account DO
    PRINT :a.id, :a.name, :a.balance;
  END FOR;
  SELECT SUM(balance) INTO :sum FROM account;
  PRINT 'sum', :sum;
END;

CALL post(20240102, 'rent for January', ROWS ((500, 120000), (110, -120000)));
CALL post(20240103, 'goods sold for cash', ROWS ((100, 35000), (400, -35000)));
-- The bank allows 200000 below zero and stands at 130000 now: this is 1 too much, and the second posting fails.
CALL post(20240104, 'a large delivery paid', ROWS ((200, 330001), (110, -330001)));
CALL post(20240104, 'delivery paid in parts', ROWS ((200, 50000), (110, -30000), (100, -20000)));
CALL post(20240105, 'a slip of the pen', ROWS ((100, 500), (400, -50)));
CALL post(20240105, 'nowhere', ROWS ((100, -500), (999, 500)));
CALL statement(110);
CALL statement(200);
CALL trial_balance();
