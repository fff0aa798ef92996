-- Three tellers at once. `run` executes their calls one after another. `replay` executes them as the journal says:
-- they begin together, and commit in another order than they began. Ann and Bob pay from different accounts, so
-- neither is in the other's way. Cleo pays from Ann's account. She has read its balance before Ann commits, so she
-- moves: she begins again after the commits so far.
CREATE TABLE account (name TEXT(8), balance INT, PRIMARY KEY (name)) VALUES ('ann', 100), ('bob', 80);

CREATE PROCEDURE pay (:who TEXT(8), :amount INT) DECLARE :has = 0; BEGIN
  SELECT balance INTO :has FROM account WHERE name = :who;
  IF :has < :amount THEN ROLLBACK 'too little'; END IF;
  UPDATE account SET balance = :has - :amount WHERE name = :who;
  PRINT :has - :amount;
END;

CALL pay('ann', 30);
CALL pay('bob', 50);
CALL pay('ann', 40);

JOURNAL <<
B 0
B 1
B 2
S 2
C 1
C 0
M 2
C 2
>>
