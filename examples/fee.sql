-- Two transfers between different accounts, which overlap. Each counts a fee in row 0. `replay` repairs the second after
-- the first has committed: of its five statements it executes again the one that counts the fee.
CREATE TABLE acc (id INT, bal INT, note TEXT(20), PRIMARY KEY (id))
  VALUES (0, 0, ''), (1, 100, ''), (2, 100, ''), (3, 100, ''), (4, 100, '');

CREATE PROCEDURE transfer (:a INT, :c INT, :x INT) DECLARE :b = 0; BEGIN
  SELECT bal INTO :b FROM acc WHERE id = :a;
  IF :b < :x THEN ROLLBACK 'no funds'; END IF;
  UPDATE acc SET bal = bal - :x WHERE id = :a;
  UPDATE acc SET bal = bal + :x WHERE id = :c;
  UPDATE acc SET bal = bal + 1 WHERE id = 0;
END;

CALL transfer(1, 2, 10);
CALL transfer(3, 4, 10);

JOURNAL <<
B 0
B 1
C 0
A 1
C 1
>>
