CREATE TABLE acc (id INT, bal INT, note TEXT(20), PRIMARY KEY (id))
  VALUES (0, 0, ''), (1, 100, ''), (2, 100, ''), (3, 100, ''), (4, 100, '');
CREATE PROCEDURE add (:a INT, :x INT) DECLARE :b = 0; BEGIN
  SELECT bal INTO :b FROM acc WHERE id = :a;  SET :b = :b + :x;
  UPDATE acc SET bal = :b WHERE id = :a;  PRINT :b;  END;
CREATE PROCEDURE transfer (:a INT, :c INT, :x INT) DECLARE :b = 0; BEGIN
  SELECT bal INTO :b FROM acc WHERE id = :a;
  IF :b < :x THEN ROLLBACK 'no funds'; END IF;
  UPDATE acc SET bal = bal - :x WHERE id = :a;
  UPDATE acc SET bal = bal + :x WHERE id = :c;
  UPDATE acc SET bal = bal + 1 WHERE id = 0;  END;
CREATE PROCEDURE mark (:a INT, :t TEXT(20)) BEGIN
  UPDATE acc SET note = :t WHERE id = :a;  END;
CREATE PROCEDURE put (:k INT, :v INT) BEGIN
  INSERT INTO acc VALUES (:k, :v, '');  END;
CREATE PROCEDURE rich () DECLARE :n = 0; BEGIN
  SELECT COUNT(*) INTO :n FROM acc WHERE bal >= 100;  PRINT :n;  END;
CREATE PROCEDURE tell () DECLARE :b = 0; DECLARE :x = 0; DECLARE :z = 0; BEGIN
  SELECT bal INTO :b FROM acc WHERE id = 1;
  IF :b > 100 THEN SET :x = 1; END IF;
  SELECT bal INTO :z FROM acc WHERE id = 2;  PRINT :x;  PRINT :z;  END;
