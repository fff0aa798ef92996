-- Accounts of branches. REFERENCES keeps each account at a branch that is there: no account is opened at another one, and
-- a branch with accounts isn't closed. `run` executes the calls one after another. By `replay` they overlap as the journal
-- says: branch 2 is closed while its account moves away, and an account is opened there while it is closed. To look for a
-- branch, or for its accounts, is to read like any other. So the calls that a commit hits there are repaired, and their
-- replies are those of `run`.
CREATE TABLE branch (id INT, city TEXT(20), PRIMARY KEY (id)) VALUES (1, 'Oslo'), (2, 'Bergen');
CREATE TABLE account (id INT, branch INT REFERENCES branch, balance INT, PRIMARY KEY (id))
  VALUES (10, 1, 100), (11, 2, 50);

CREATE PROCEDURE open (:id INT, :branch INT)
BEGIN
  INSERT INTO account VALUES (:id, :branch, 0);
END;

-- All accounts of one branch go to another.
CREATE PROCEDURE move (:from INT, :to INT)
BEGIN
  UPDATE account SET branch = :to WHERE branch = :from;
  PRINT :found;
END;

-- It sets no column with REFERENCES, so it looks for no branch.
CREATE PROCEDURE pay (:id INT, :amount INT)
BEGIN
  UPDATE account SET balance = balance + :amount WHERE id = :id;
  PRINT :found;
END;

CREATE PROCEDURE close (:branch INT)
BEGIN
  DELETE FROM branch WHERE id = :branch;
  PRINT :found;
END;

CALL close(2);      -- it has an account
CALL move(2, 1);
CALL close(2);
CALL open(12, 2);   -- which is closed
CALL pay(11, 30);

JOURNAL <<
B 0
B 1
B 2
B 3
B 4
C 0
C 1
A 2
C 2
A 3
C 3
C 4
>>
