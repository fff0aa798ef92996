-- The tables and procedures of TPC-C (revision 5.11), shortened: addresses, telephone numbers, the date since when a
-- customer is one, credit limits, image numbers and the districts' texts of a stock are left out, h_id is a key of its
-- own, and :c = 0 asks for a customer by last name. Amounts are cents, rates are ten-thousandths, and a carrier or a
-- delivery date of 0 stands for none.
-- Then come a warehouse with one district, two customers and nine items, and two orders that share item 5.
-- The numbers on the right count the statements of new_order.

CREATE TABLE warehouse (w_id INT, w_name TEXT(10), w_tax INT, w_ytd INT, PRIMARY KEY (w_id));
CREATE TABLE district (d_w_id INT, d_id INT, d_name TEXT(10), d_tax INT, d_ytd INT,
  d_next_o_id INT, PRIMARY KEY (d_w_id, d_id));
CREATE TABLE customer (c_w_id INT, c_d_id INT, c_id INT, c_first TEXT(16), c_middle TEXT(2),
  c_last TEXT(16), c_credit TEXT(2), c_discount INT, c_balance INT, c_ytd_payment INT,
  c_payment_cnt INT, c_delivery_cnt INT, c_data TEXT(500), PRIMARY KEY (c_w_id, c_d_id, c_id));
CREATE TABLE history (h_id INT, h_c_id INT, h_c_d_id INT, h_c_w_id INT, h_d_id INT, h_w_id INT,
  h_date INT, h_amount INT, h_data TEXT(24), PRIMARY KEY (h_id));
CREATE TABLE new_order (no_w_id INT, no_d_id INT, no_o_id INT,
  PRIMARY KEY (no_w_id, no_d_id, no_o_id));
CREATE TABLE orders (o_w_id INT, o_d_id INT, o_id INT, o_c_id INT, o_entry_d INT,
  o_carrier_id INT, o_ol_cnt INT, o_all_local INT, PRIMARY KEY (o_w_id, o_d_id, o_id));
CREATE TABLE order_line (ol_w_id INT, ol_d_id INT, ol_o_id INT, ol_number INT, ol_i_id INT,
  ol_supply_w_id INT, ol_delivery_d INT, ol_quantity INT, ol_amount INT,
  PRIMARY KEY (ol_w_id, ol_d_id, ol_o_id, ol_number));
CREATE TABLE item (i_id INT, i_name TEXT(24), i_price INT, i_data TEXT(50), PRIMARY KEY (i_id));
CREATE TABLE stock (s_w_id INT, s_i_id INT, s_quantity INT, s_ytd INT, s_order_cnt INT,
  s_remote_cnt INT, s_data TEXT(50), PRIMARY KEY (s_w_id, s_i_id));

CREATE PROCEDURE new_order (:w INT, :d INT, :c INT, :date INT, :lines ROWS (i INT, s INT, q INT))
DECLARE :wtax = 0; DECLARE :dtax = 0; DECLARE :o = 0; DECLARE :disc = 0; DECLARE :last = '';
DECLARE :credit = ''; DECLARE :n = 0; DECLARE :local = 1; DECLARE :price = 0;
DECLARE :iname = ''; DECLARE :idata = ''; DECLARE :sq = 0; DECLARE :sq2 = 0;
DECLARE :sdata = ''; DECLARE :amount = 0; DECLARE :sum = 0; DECLARE :brand = '';
DECLARE :total = 0;
BEGIN
  SELECT w_tax INTO :wtax FROM warehouse WHERE w_id = :w;                                 -- 1
  SELECT d_tax INTO :dtax FROM district WHERE d_w_id = :w AND d_id = :d;                  -- 2
  SELECT d_next_o_id INTO :o FROM district WHERE d_w_id = :w AND d_id = :d;               -- 3
  UPDATE district SET d_next_o_id = d_next_o_id + 1 WHERE d_w_id = :w AND d_id = :d;      -- 4
  SELECT c_discount, c_last, c_credit INTO :disc, :last, :credit FROM customer
    WHERE c_w_id = :w AND c_d_id = :d AND c_id = :c;                                      -- 5
  FOR :l IN :lines DO                                                                     -- 6
    SET :n = :n + 1;                                                                      -- 7
    IF :l.s <> :w THEN SET :local = 0; END IF;                                            -- 8, 9
  END FOR;
  INSERT INTO orders VALUES (:w, :d, :o, :c, :date, 0, :n, :local);                       -- 10
  INSERT INTO new_order VALUES (:w, :d, :o);                                              -- 11
  SET :n = 0;                                                                             -- 12
  FOR :l IN :lines DO                                                                     -- 13
    SET :n = :n + 1;                                                                      -- 14
    SELECT i_price, i_name, i_data INTO :price, :iname, :idata FROM item
      WHERE i_id = :l.i;                                                                  -- 15
    IF :found = 0 THEN ROLLBACK 'Item number is not valid'; END IF;                       -- 16, 17
    SELECT s_quantity, s_data INTO :sq, :sdata FROM stock
      WHERE s_w_id = :l.s AND s_i_id = :l.i;                                              -- 18
    IF :sq >= :l.q + 10 THEN SET :sq2 = :sq - :l.q;                                       -- 19, 20
    ELSE SET :sq2 = :sq - :l.q + 91; END IF;                                              -- 21
    UPDATE stock SET s_quantity = :sq2, s_ytd = s_ytd + :l.q, s_order_cnt = s_order_cnt + 1
      WHERE s_w_id = :l.s AND s_i_id = :l.i;                                              -- 22
    IF :l.s <> :w THEN UPDATE stock SET s_remote_cnt = s_remote_cnt + 1
      WHERE s_w_id = :l.s AND s_i_id = :l.i; END IF;                                      -- 23, 24
    SET :amount = :l.q * :price;                                                          -- 25
    SET :sum = :sum + :amount;                                                            -- 26
    IF CONTAINS(:idata, 'ORIGINAL') AND CONTAINS(:sdata, 'ORIGINAL')
    THEN SET :brand = 'B'; ELSE SET :brand = 'G'; END IF;                                 -- 27, 28, 29
    INSERT INTO order_line VALUES (:w, :d, :o, :n, :l.i, :l.s, 0, :l.q, :amount);         -- 30
    PRINT :l.i, :iname, :l.q, :sq2, :brand, :price, :amount;                              -- 31
  END FOR;
  SET :total = :sum * (10000 - :disc) * (10000 + :wtax + :dtax) / 100000000;              -- 32
  PRINT :o, :last, :credit, :disc, :wtax, :dtax, :n, :total;                              -- 33
END;

CREATE PROCEDURE payment (:w INT, :d INT, :cw INT, :cd INT, :c INT, :last TEXT(16),
  :amount INT, :date INT, :h INT)
DECLARE :wname = ''; DECLARE :dname = ''; DECLARE :id = 0; DECLARE :n = 0;
DECLARE :credit = ''; DECLARE :data = ''; DECLARE :bal = 0;
BEGIN
  UPDATE warehouse SET w_ytd = w_ytd + :amount WHERE w_id = :w;
  SELECT w_name INTO :wname FROM warehouse WHERE w_id = :w;
  UPDATE district SET d_ytd = d_ytd + :amount WHERE d_w_id = :w AND d_id = :d;
  SELECT d_name INTO :dname FROM district WHERE d_w_id = :w AND d_id = :d;
  SET :id = :c;
  IF :c = 0 THEN
    SELECT COUNT(*) INTO :n FROM customer WHERE c_w_id = :cw AND c_d_id = :cd AND c_last = :last;
    IF :n = 0 THEN ROLLBACK 'no customer'; END IF;
    SELECT c_id INTO :id FROM customer WHERE c_w_id = :cw AND c_d_id = :cd AND c_last = :last
      ORDER BY c_first OFFSET (:n + 1) / 2 - 1;
  END IF;
  UPDATE customer SET c_balance = c_balance - :amount, c_ytd_payment = c_ytd_payment + :amount,
    c_payment_cnt = c_payment_cnt + 1 WHERE c_w_id = :cw AND c_d_id = :cd AND c_id = :id;
  SELECT c_credit, c_data, c_balance INTO :credit, :data, :bal FROM customer
    WHERE c_w_id = :cw AND c_d_id = :cd AND c_id = :id;
  IF :credit = 'BC' THEN
    UPDATE customer SET c_data = LEFT(TEXTOF(:id) || ' ' || TEXTOF(:cd) || ' ' || TEXTOF(:cw)
      || ' ' || TEXTOF(:d) || ' ' || TEXTOF(:w) || ' ' || TEXTOF(:amount) || ' ' || :data, 500)
      WHERE c_w_id = :cw AND c_d_id = :cd AND c_id = :id;
  END IF;
  INSERT INTO history VALUES (:h, :id, :cd, :cw, :d, :w, :date, :amount,
    :wname || '    ' || :dname);
  PRINT :id, :credit, :bal, :amount;
END;

CREATE PROCEDURE order_status (:w INT, :d INT, :c INT, :last TEXT(16))
DECLARE :id = 0; DECLARE :n = 0; DECLARE :bal = 0; DECLARE :first = ''; DECLARE :lname = '';
DECLARE :o = 0; DECLARE :e = 0; DECLARE :k = 0;
BEGIN
  SET :id = :c;
  IF :c = 0 THEN
    SELECT COUNT(*) INTO :n FROM customer WHERE c_w_id = :w AND c_d_id = :d AND c_last = :last;
    IF :n = 0 THEN ROLLBACK 'no customer'; END IF;
    SELECT c_id INTO :id FROM customer WHERE c_w_id = :w AND c_d_id = :d AND c_last = :last
      ORDER BY c_first OFFSET (:n + 1) / 2 - 1;
  END IF;
  SELECT c_balance, c_first, c_last INTO :bal, :first, :lname FROM customer
    WHERE c_w_id = :w AND c_d_id = :d AND c_id = :id;
  PRINT :id, :bal, :first, :lname;
  SELECT o_id, o_entry_d, o_carrier_id INTO :o, :e, :k FROM orders
    WHERE o_w_id = :w AND o_d_id = :d AND o_c_id = :id ORDER BY o_id DESC;
  IF :found = 1 THEN
    PRINT :o, :e, :k;
    FOR :r IN SELECT ol_i_id, ol_supply_w_id, ol_quantity, ol_amount, ol_delivery_d
      FROM order_line WHERE ol_w_id = :w AND ol_d_id = :d AND ol_o_id = :o DO
      PRINT :r.ol_i_id, :r.ol_supply_w_id, :r.ol_quantity, :r.ol_amount, :r.ol_delivery_d;
    END FOR;
  END IF;
END;

CREATE PROCEDURE delivery (:w INT, :carrier INT, :date INT)
DECLARE :o = 0; DECLARE :c = 0; DECLARE :sum = 0;
BEGIN
  FOR :r IN SELECT d_id FROM district WHERE d_w_id = :w DO
    SELECT MIN(no_o_id) INTO :o FROM new_order WHERE no_w_id = :w AND no_d_id = :r.d_id;
    IF :found = 1 THEN
      DELETE FROM new_order WHERE no_w_id = :w AND no_d_id = :r.d_id AND no_o_id = :o;
      SELECT o_c_id INTO :c FROM orders WHERE o_w_id = :w AND o_d_id = :r.d_id AND o_id = :o;
      UPDATE orders SET o_carrier_id = :carrier
        WHERE o_w_id = :w AND o_d_id = :r.d_id AND o_id = :o;
      UPDATE order_line SET ol_delivery_d = :date
        WHERE ol_w_id = :w AND ol_d_id = :r.d_id AND ol_o_id = :o;
      SELECT SUM(ol_amount) INTO :sum FROM order_line
        WHERE ol_w_id = :w AND ol_d_id = :r.d_id AND ol_o_id = :o;
      UPDATE customer SET c_balance = c_balance + :sum, c_delivery_cnt = c_delivery_cnt + 1
        WHERE c_w_id = :w AND c_d_id = :r.d_id AND c_id = :c;
      PRINT :r.d_id, :o;
    END IF;
  END FOR;
END;

CREATE PROCEDURE stock_level (:w INT, :d INT, :t INT)
DECLARE :o = 0; DECLARE :k = 0; DECLARE :n = 0;
BEGIN
  SELECT d_next_o_id INTO :o FROM district WHERE d_w_id = :w AND d_id = :d;
  FOR :r IN SELECT DISTINCT ol_i_id FROM order_line
    WHERE ol_w_id = :w AND ol_d_id = :d AND ol_o_id >= :o - 20 AND ol_o_id < :o DO
    SELECT COUNT(*) INTO :k FROM stock
      WHERE s_w_id = :w AND s_i_id = :r.ol_i_id AND s_quantity < :t;
    SET :n = :n + :k;
  END FOR;
  PRINT :n;
END;

COPY warehouse <<
1,Alpha,800,3000000
>>
COPY district <<
1,1,Bravo,1200,3000000,1
>>
COPY customer <<
1,1,1,Ann,OE,BARBARBAR,GC,500,-1000,1000,1,0,x
1,1,2,Bob,OE,BARBAROUGHT,BC,0,-1000,1000,1,0,x
>>
COPY item <<
1,item1,100,plain
2,item2,200,plain
3,item3,300,plain
4,item4,400,plain
5,item5,500,plain
6,item6,600,plain
7,item7,700,plain
8,item8,800,plain
9,item9,900,ORIGINAL
>>
COPY stock <<
1,1,20,0,0,0,plain
1,2,20,0,0,0,plain
1,3,20,0,0,0,plain
1,4,20,0,0,0,plain
1,5,20,0,0,0,plain
1,6,20,0,0,0,plain
1,7,20,0,0,0,plain
1,8,20,0,0,0,plain
1,9,20,0,0,0,ORIGINAL
>>

CALL new_order(1, 1, 1, 20170514, ROWS ((1, 1, 5), (2, 1, 5), (3, 1, 5), (4, 1, 5), (5, 1, 5)));
CALL new_order(1, 1, 2, 20170514, ROWS ((5, 1, 5), (6, 1, 5), (7, 1, 5), (8, 1, 5), (9, 1, 5)));
JOURNAL <<
B 0
B 1
C 0
A 1
C 1
>>
