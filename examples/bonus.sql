-- A payment, and a call that tells whether account 1 has more than 100, and what account 2 has. `replay` repairs the
-- second call after the payment. The SELECT of account 1 finds another balance, so the IF goes the other way, and :x is
-- set by another statement than before. These three and the PRINT of :x are executed again. The SELECT of account 2 and
-- the PRINT of :z are kept.
CREATE TABLE acc (id INT, bal INT, note TEXT(20), PRIMARY KEY (id))
  VALUES (0, 0, ''), (1, 100, ''), (2, 100, ''), (3, 100, ''), (4, 100, '');

CREATE PROCEDURE add (:a INT, :x INT) DECLARE :b = 0; BEGIN
  SELECT bal INTO :b FROM acc WHERE id = :a;
  SET :b = :b + :x;
  UPDATE acc SET bal = :b WHERE id = :a;
  PRINT :b;
END;

CREATE PROCEDURE tell () DECLARE :b = 0; DECLARE :x = 0; DECLARE :z = 0; BEGIN
  SELECT bal INTO :b FROM acc WHERE id = 1;
  IF :b > 100 THEN SET :x = 1; END IF;
  SELECT bal INTO :z FROM acc WHERE id = 2;
  PRINT :x;
  PRINT :z;
END;

CALL add(1, 5);
CALL tell();

JOURNAL <<
B 0
B 1
C 0
A 1
C 1
>>
