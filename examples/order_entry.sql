-- Orders from a warehouse. An order has any number of lines; one bad line takes the whole order back.
CREATE TABLE product (id INT, name TEXT(20), price INT, PRIMARY KEY (id))
  VALUES (1, 'nail', 2), (2, 'hammer', 1250), (3, 'saw, large', 2100), (4, '19" rack', 8900);
CREATE TABLE stock (warehouse INT, product INT, quantity INT, least INT, PRIMARY KEY (warehouse, product))
  VALUES (1, 1, 1000, 200), (1, 2, 8, 2), (1, 3, 5, 2), (1, 4, 1, 1), (2, 1, 50, 200), (2, 2, 40, 2);
CREATE TABLE orders (id INT, customer TEXT(20), lines INT, total INT, PRIMARY KEY (id));
CREATE TABLE order_line (order_id INT, number INT, product INT, quantity INT, amount INT,
  PRIMARY KEY (order_id, number));

-- Takes an order with a line for each row of :wanted, and prints a line of the bill for each.
CREATE PROCEDURE take_order (:warehouse INT, :customer TEXT(20), :wanted ROWS (product INT, quantity INT))
DECLARE :id = 0; DECLARE :number = 0; DECLARE :total = 0;
DECLARE :name = ''; DECLARE :price = 0; DECLARE :left = 0;
BEGIN
  SELECT MAX(id) INTO :id FROM orders;
  SET :id = :id + 1;
  FOR :w IN :wanted DO
    SET :number = :number + 1;
    SELECT name, price INTO :name, :price FROM product WHERE id = :w.product;
    IF :found = 0 THEN ROLLBACK 'there is no such product'; END IF;
    SELECT quantity INTO :left FROM stock WHERE warehouse = :warehouse AND product = :w.product;
    IF :found = 0 OR :left < :w.quantity THEN ROLLBACK 'there is not enough in stock'; END IF;
    UPDATE stock SET quantity = quantity - :w.quantity WHERE warehouse = :warehouse AND product = :w.product;
    INSERT INTO order_line VALUES (:id, :number, :w.product, :w.quantity, :price * :w.quantity);
    SET :total = :total + :price * :w.quantity;
    PRINT :number, :name, :w.quantity, :price * :w.quantity;
  END FOR;
  IF :number = 0 THEN ROLLBACK 'an order has a line'; END IF;
  INSERT INTO orders VALUES (:id, :customer, :number, :total);
  PRINT 'order', :id, :total;
END;

-- The products that have run low, the scarcest first. WHERE compares columns with values alone, so the two columns of a
-- row are compared in the loop.
CREATE PROCEDURE low_stock (:warehouse INT)
DECLARE :name = ''; DECLARE :low = 0;
BEGIN
  FOR :s IN SELECT product, quantity, least FROM stock WHERE warehouse = :warehouse ORDER BY quantity DO
    IF :s.quantity < :s.least THEN
      SELECT name INTO :name FROM product WHERE id = :s.product;
      PRINT :name, :s.quantity, :s.least;
      SET :low = :low + 1;
    END IF;
  END FOR;
  PRINT 'low', :low;
END;

-- Fills up what has run low to three times its least quantity.
CREATE PROCEDURE restock (:warehouse INT)
BEGIN
  FOR :s IN SELECT product, quantity, least FROM stock WHERE warehouse = :warehouse DO
    IF :s.quantity < :s.least THEN
      UPDATE stock SET quantity = 3 * least WHERE warehouse = :warehouse AND product = :s.product;
      PRINT :s.product, 3 * :s.least - :s.quantity;
    END IF;
  END FOR;
END;

-- Which products were sold, and how much of each.
CREATE PROCEDURE sold ()
DECLARE :quantity = 0; DECLARE :amount = 0;
BEGIN
  FOR :p IN SELECT DISTINCT product FROM order_line DO
    SELECT SUM(quantity) INTO :quantity FROM order_line WHERE product = :p.product;
    SELECT SUM(amount) INTO :amount FROM order_line WHERE product = :p.product;
    PRINT :p.product, :quantity, :amount;
  END FOR;
END;

CALL take_order(1, 'Ann', ROWS ((2, 1), (1, 300), (3, 2)));
CALL take_order(1, 'Bob', ROWS ((1, 600), (4, 1), (2, 10)));  -- the third line fails: nails and rack stay in stock
CALL take_order(1, 'Bob', ROWS ((1, 600), (4, 1), (2, 5)));
CALL take_order(2, 'Cem', ROWS ((2, 1), (7, 1)));             -- there is no product 7
CALL take_order(2, 'Cem', ROWS ());
CALL low_stock(1);
CALL low_stock(2);
CALL restock(1);
CALL low_stock(1);
CALL sold();
