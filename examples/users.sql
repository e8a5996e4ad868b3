-- Rows come in any order and are shown in ascending key.
INSERT INTO users (id, name) VALUES (2, 'bob');
INSERT INTO users (id, name) VALUES (1, 'ann');
SELECT * FROM users;

-- A key stands once. A refused statement changes nothing.
INSERT INTO users (id, name) VALUES (2, 'eve');
SELECT * FROM users;

-- What reads as no statement is refused, and the run goes on.
SELEC * FROM users;
insert into "users" (ID, name) values (-3, 'zoe')
SELECT*FROM users
