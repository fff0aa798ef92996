-- A statement of accounts beside transfers. The procedure `report` is READ ONLY: a call of it shows the accounts as they
-- were at its begin, whatever is committed while it runs. `run` executes the calls one after another. `replay` executes
-- them as the journal says: the first report begins with two transfers, and both commit before it is answered. It doesn't
-- see them, isn't executed again, and stands before them in the history. Of the transfers the second is repaired, since
-- both go to Cleo. The last report begins after them, and shows them.
CREATE TABLE account (id INT, owner TEXT(8), balance INT, PRIMARY KEY (id))
  VALUES (1, 'ann', 100), (2, 'bob', 80), (3, 'cleo', 0);

CREATE PROCEDURE transfer (:from INT, :to INT, :amount INT) DECLARE :has = 0; BEGIN
  SELECT balance INTO :has FROM account WHERE id = :from;
  IF :has < :amount THEN ROLLBACK 'too little'; END IF;
  UPDATE account SET balance = balance - :amount WHERE id = :from;
  UPDATE account SET balance = balance + :amount WHERE id = :to;
END;

-- Each account with its balance, and their sum, which no transfer changes.
CREATE PROCEDURE report () READ ONLY DECLARE :sum = 0; BEGIN
  FOR :a IN SELECT id, owner, balance FROM account DO
    PRINT :a.id, :a.owner, :a.balance;
    SET :sum = :sum + :a.balance;
  END FOR;
  PRINT 'sum', :sum;
END;

CALL report();
CALL transfer(1, 3, 60);
CALL transfer(2, 3, 30);
CALL report();

JOURNAL <<
B 0
B 1
B 2
S 0
C 1
A 2
C 2
R 0
B 3
R 3
>>
