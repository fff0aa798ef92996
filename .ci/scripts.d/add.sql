CREATE TABLE acc (id INT, bal INT, note TEXT(20), PRIMARY KEY (id))
  VALUES (0, 0, ''), (1, 100, ''), (2, 100, ''), (3, 100, ''), (4, 100, '');
CREATE PROCEDURE add (:a INT, :x INT) DECLARE :b = 0; BEGIN
  SELECT bal INTO :b FROM acc WHERE id = :a;  SET :b = :b + :x;
  UPDATE acc SET bal = :b WHERE id = :a;  PRINT :b;  END;
