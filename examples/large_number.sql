-- One more than the greatest number that can be written.
CREATE TABLE acc (id INT, bal INT, PRIMARY KEY (id)) VALUES (1, 9223372036854775808);
