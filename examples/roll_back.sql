-- Two rows that stood before.
INSERT INTO users (id, name) VALUES (1, 'ann'), (2, 'bob');

-- A NOT NULL column with a check. Without `up` these rows get the default at once, and the check
-- isn't looked at in them yet. In what is written from now on it is, through either version.
\start {"name":"02_age","operations":[{"add_column":{"table":"users","column":{"name":"age","type":"bigint","default":"0","check":{"name":"age_pos","constraint":"age > 0"}}}}]}
INSERT INTO users (id, name) VALUES (3, 'eve');
SET search_path TO public_02_age;
INSERT INTO users (id, name, age) VALUES (4, 'dan', 29);

-- Nothing is left to be filled, but the migration can't be completed: the first row has the age 0.
\fill
\complete

-- So it is rolled back. What was written through either version stays in the old one.
\rollback
SELECT * FROM users;
SET search_path TO public_01_users;
SELECT * FROM users;

-- A second try makes an age for the rows that stand. Each batch looks at what it makes.
\start {"name":"03_age","operations":[{"add_column":{"table":"users","column":{"name":"age","type":"bigint","default":"1","check":{"name":"age_pos","constraint":"age > 0"}},"up":"length(name) * 10"}}]}
INSERT INTO users (id, name) VALUES (5, '');
INSERT INTO users (id, name) VALUES (5, 'fay');
\fill
\complete
SET search_path TO public_03_age;
SELECT * FROM users;
INSERT INTO users (id, name, age) VALUES (6, 'gus', NULL);
INSERT INTO users (id, name, age) VALUES (6, 'gus', 0);
INSERT INTO users (id, name) VALUES (6, 'gus');
