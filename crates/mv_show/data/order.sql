CREATE TABLE stock (item INT, pieces INT, PRIMARY KEY (item)) VALUES (1, 5);
CREATE PROCEDURE sell (:n INT) DECLARE :has = 0; BEGIN
  SELECT pieces INTO :has FROM stock WHERE item = 1;
  IF :has < :n THEN ROLLBACK 'less than <n> & "all"'; END IF;
  UPDATE stock SET pieces = :has - :n WHERE item = 1;
END;
CALL sell(3);
CALL sell(4);
JOURNAL <<
B 0
B 1
C 0
A 1
C 1
>>
