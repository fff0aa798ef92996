-- The procedure has no END: its statements end in a word that begins none.
CREATE TABLE acc (id INT, bal INT, PRIMARY KEY (id)) VALUES (1, 100);
CREATE PROCEDURE add (:a INT, :x INT) DECLARE :b = 0; BEGIN
  SELECT bal INTO :b FROM acc WHERE id = :a;
  PRINT :b;
CALL add(1, 5);
