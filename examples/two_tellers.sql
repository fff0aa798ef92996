-- Two tellers pay into one account, one after the other.
CREATE TABLE acc (id INT, bal INT, note TEXT(20), PRIMARY KEY (id))
  VALUES (1, 100, 'ann'), (2, 250, 'bob');
CREATE PROCEDURE pay (:account INT, :amount INT) DECLARE :balance = 0; BEGIN
  SELECT bal INTO :balance FROM acc WHERE id = :account;
  SET :balance = :balance + :amount;
  UPDATE acc SET bal = :balance WHERE id = :account;
  PRINT :balance;
END;
CALL pay(1, 5);
CALL pay(1, 7);
