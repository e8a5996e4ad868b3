-- Three rows, written before the migration.
INSERT INTO users (id, name) VALUES (1, 'ann');
INSERT INTO users (id, name) VALUES (2, 'bob');
INSERT INTO users (id, name) VALUES (3, 'eve');

-- A column is added. `up` makes its value from the old row: here it is the name.
\start {"name":"02_add_nick","operations":[{"add_column":{"table":"users","column":{"name":"nick","type":"text","nullable":true},"up":"name"}}]}

-- Both versions stand, and search_path picks one. The rows aren't filled yet.
SELECT * FROM users;
SET search_path TO public_02_add_nick;
SELECT * FROM users;

-- A write through either version is a write of both: what is written through the
-- old one gets its new value by `up` at once.
INSERT INTO users (id, name, nick) VALUES (4, 'dan', 'd');
SET search_path TO public_01_users;
INSERT INTO users (id, name) VALUES (5, 'fay');
SELECT * FROM users;

-- A batch fills the least two rows that wait; then the rest is filled.
\batch 2
SET search_path TO public_02_add_nick;
SELECT id, nick FROM users;
\complete
\fill
\complete

-- The old version is gone.
SELECT * FROM users;
SET search_path TO public_01_users;
SELECT * FROM users;
