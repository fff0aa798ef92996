-- Orders and their lines. An order has a customer, a line an order and a product, and a product one that may stand for it.
-- Tables may refer to later ones, and to themselves.
CREATE TABLE line (ord INT REFERENCES ord, number INT, product INT REFERENCES product, PRIMARY KEY (ord, number));
CREATE TABLE ord (id INT, customer TEXT(20) REFERENCES customer, PRIMARY KEY (id));
CREATE TABLE customer (name TEXT(20), PRIMARY KEY (name)) VALUES ('Ann'), ('Bob'), ('Dora');
CREATE TABLE product (id INT, name TEXT(20), other INT REFERENCES product, PRIMARY KEY (id))
  VALUES (1, 'lamp', 1), (2, 'chair', 1), (3, 'table', 3);

-- A new order with one line.
CREATE PROCEDURE buy (:id INT, :customer TEXT(20), :product INT)
BEGIN
  INSERT INTO ord VALUES (:id, :customer);
  INSERT INTO line VALUES (:id, 1, :product);
END;

-- One product in place of another, on all lines.
CREATE PROCEDURE swap (:old INT, :new INT)
BEGIN
  UPDATE line SET product = :new WHERE product = :old;
  PRINT :found;
END;

-- The lines of an order are deleted before it.
CREATE PROCEDURE cancel (:id INT)
BEGIN
  DELETE FROM line WHERE ord = :id;
  DELETE FROM ord WHERE id = :id;
  PRINT :found;
END;

CREATE PROCEDURE forget (:name TEXT(20))
BEGIN
  DELETE FROM customer WHERE name = :name;
  PRINT :found;
END;

-- Products of which one stands for the other are deleted together.
CREATE PROCEDURE discard (:from INT, :to INT)
BEGIN
  DELETE FROM product WHERE id >= :from AND id <= :to;
END;

CALL buy(1, 'Ann', 2);
CALL buy(2, 'Cem', 2);   -- who is Cem?
CALL buy(2, 'Bob', 9);   -- no product 9: Bob's order isn't made either
CALL buy(1, 'Cem', 2);   -- there is an order 1, which is told first
CALL forget('Ann');      -- she has an order
CALL forget('Bob');
CALL swap(2, 4);         -- no product 4
CALL swap(5, 4);         -- which no line asks for
CALL discard(1, 1);      -- stands for the chair
CALL swap(2, 3);
CALL discard(1, 2);
CALL cancel(1);
CALL forget('Ann');
CALL buy(3, 'Dora', 3);
