-- Seats of a show. A seat without a guest is free; who finds none waits for one.
CREATE TABLE show (id INT, title TEXT(30), PRIMARY KEY (id))
  VALUES (1, 'The Tempest'), (2, 'Faust');
CREATE TABLE seat (show INT, line TEXT(1), number INT, guest TEXT(20), PRIMARY KEY (show, line, number));
CREATE TABLE waiting (show INT, ticket INT, guest TEXT(20), PRIMARY KEY (show, ticket));

-- One seat for one guest, or nothing at all.
CREATE PROCEDURE book (:show INT, :line TEXT(1), :number INT, :guest TEXT(20))
DECLARE :who = '';
BEGIN
  SELECT guest INTO :who FROM seat WHERE show = :show AND line = :line AND number = :number;
  IF :found = 0 THEN ROLLBACK 'there is no such seat'; END IF;
  IF :who <> '' THEN ROLLBACK 'the seat is taken'; END IF;
  UPDATE seat SET guest = :guest WHERE show = :show AND line = :line AND number = :number;
  PRINT :guest, :line || TEXTOF(:number);
END;

-- The free seat that is farthest back, and else the next ticket of the waiting list.
CREATE PROCEDURE book_any (:show INT, :guest TEXT(20))
DECLARE :line = ''; DECLARE :number = 0; DECLARE :ticket = 0;
BEGIN
  SELECT line, number INTO :line, :number FROM seat WHERE show = :show AND guest = ''
    ORDER BY line DESC, number;
  IF :found = 1 THEN
    UPDATE seat SET guest = :guest WHERE show = :show AND line = :line AND number = :number;
    PRINT :guest, :line || TEXTOF(:number);
  ELSE
    SELECT MAX(ticket) INTO :ticket FROM waiting WHERE show = :show;
    INSERT INTO waiting VALUES (:show, :ticket + 1, :guest);
    PRINT :guest, 'waits with ticket', :ticket + 1;
  END IF;
END;

-- Gives a seat back. The guest with the lowest ticket gets it at once.
CREATE PROCEDURE cancel (:show INT, :line TEXT(1), :number INT)
DECLARE :who = ''; DECLARE :ticket = 0;
BEGIN
  SELECT guest INTO :who FROM seat WHERE show = :show AND line = :line AND number = :number;
  IF :found = 0 OR :who = '' THEN ROLLBACK 'nobody''s seat'; END IF;
  SET :who = '';
  SELECT ticket, guest INTO :ticket, :who FROM waiting WHERE show = :show ORDER BY ticket;
  DELETE FROM waiting WHERE show = :show AND ticket = :ticket;
  UPDATE seat SET guest = :who WHERE show = :show AND line = :line AND number = :number;
  IF :who = '' THEN PRINT 'free again'; ELSE PRINT 'goes to', :who; END IF;
END;

-- Who stands at a place of the waiting list; place 1 comes next. There is nobody at place 0.
CREATE PROCEDURE who_waits (:show INT, :place INT)
DECLARE :guest = 'nobody';
BEGIN
  SELECT guest INTO :guest FROM waiting WHERE show = :show ORDER BY ticket OFFSET :place - 1;
  PRINT :place, :guest;
END;

-- The house: how many seats are free, how many guests there are under different names, and the seats that are taken.
CREATE PROCEDURE house (:show INT)
DECLARE :title = ''; DECLARE :free = 0; DECLARE :names = 0;
BEGIN
  SELECT title INTO :title FROM show WHERE id = :show;
  SELECT COUNT(*) INTO :free FROM seat WHERE show = :show AND guest = '';
  SELECT COUNT(DISTINCT guest) INTO :names FROM seat WHERE show = :show AND guest <> '';
  PRINT :title, :free, :names;
  FOR :s IN SELECT line, number, guest FROM seat WHERE show = :show AND guest <> '' DO
    PRINT :s.line || TEXTOF(:s.number), :s.guest;
  END FOR;
END;

COPY seat <<
1,A,1,
1,A,2,
1,B,1,
2,A,1,
>>

CALL book(1, 'A', 1, 'Ann');
CALL book(1, 'A', 1, 'Bob');  -- Ann has it
CALL book(1, 'C', 1, 'Bob');  -- the last line is B
CALL book_any(1, 'Bob');
CALL book_any(1, 'Ann');      -- takes the last free seat
CALL book_any(1, 'Cem');
CALL book_any(1, 'Dora');
CALL who_waits(1, 2);
CALL who_waits(1, 3);
CALL who_waits(1, 0);
CALL cancel(1, 'B', 1);       -- Cem, who waits longest, gets it
CALL who_waits(1, 1);
CALL cancel(1, 'A', 2);       -- and then Dora one of Ann's
CALL cancel(1, 'A', 1);       -- nobody waits any more
CALL cancel(2, 'A', 1);       -- nobody has it
CALL house(1);
CALL house(2);
