-- A sum outside 64 bits rolls its call back: the call has no lines, and no table changes.
CREATE TABLE acc (id INT, bal INT, PRIMARY KEY (id)) VALUES (1, 100);
CREATE PROCEDURE pay (:account INT, :amount INT) DECLARE :balance = 0; BEGIN
  SELECT bal INTO :balance FROM acc WHERE id = :account;
  SET :balance = :balance + :amount;
  UPDATE acc SET bal = :balance WHERE id = :account;
END;
CALL pay(1, 9223372036854775807);
CALL pay(1, 1);
