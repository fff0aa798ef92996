CREATE TABLE item (id INT, price INT, PRIMARY KEY (id));
CREATE PROCEDURE tell (:id INT) DECLARE :price = 0; BEGIN
	SELECT prize INTO :price FROM item WHERE id = :id;
	PRINT :price;
END;
