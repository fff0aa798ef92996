-- A column that isn't there: the line names the token at which `balance` stands, counted from 1.
CREATE TABLE acc (id INT, bal INT, PRIMARY KEY (id)) VALUES (1, 100);
CREATE PROCEDURE close (:a INT) BEGIN
  UPDATE acc SET balance = 0 WHERE id = :a;
END;
CALL close(1);
