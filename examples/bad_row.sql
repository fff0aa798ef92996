-- The second row of the block has a word where a number belongs. Nothing is run.
CREATE TABLE seats (hall INT, seat INT, guest TEXT(10), PRIMARY KEY (hall, seat)) VALUES (1, 1, 'Ann');
COPY seats <<
1,2,Bob
1,three,Cem
>>
