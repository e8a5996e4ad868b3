-- A column of numbers that began as a text.
\start {"name":"02_age","operations":[{"add_column":{"table":"users","column":{"name":"age","type":"text","nullable":true}}}]}
\complete
SET search_path TO public_02_age;
INSERT INTO users (id, name, age) VALUES (1, 'ann', '37'), (2, 'bob', '41');

-- Its type changes. `up` makes the number of the text, and `down` the text of the number.
\start {"name":"03_age","operations":[{"alter_column":{"table":"users","column":"age","type":"bigint","up":"CAST(age AS bigint)","down":"CAST(age AS text)"}}]}

-- Until the migration is completed both versions are written. Through the old one an age is a
-- text, and one that is no number is refused, since the new version couldn't have it.
INSERT INTO users (id, name, age) VALUES (3, 'eve', '29');
INSERT INTO users (id, name, age) VALUES (4, 'dan', 'old');
UPDATE users SET age = age || '0' WHERE id = 2;

-- Through the new one it is a number, and `down` keeps the old version in step.
SET search_path TO public_03_age;
UPDATE users SET age = age + 1 WHERE id = 3;
INSERT INTO users (id, name, age) VALUES (5, 'fay', 50);
SELECT * FROM users;
SET search_path TO public_02_age;
SELECT * FROM users;

-- The row that nobody wrote meanwhile is filled by `up`. Then the old version goes.
\fill
\complete
SELECT * FROM users;
SET search_path TO public_03_age;
SELECT id, name, age * 2 FROM users WHERE age > 30;
