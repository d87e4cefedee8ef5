-- One case a paragraph, and what is right of its export, after "right:". Two things are always right: the rows and columns of
-- PostgreSQL, or fewer with a line of the report that names the role or the table. "the same" asks for the first, "less" for the
-- second. The schema is public. With psql's -v plain_root=1 the role root is a plain one.
CREATE ROLE keeper;
CREATE ROLE reader;
CREATE ROLE readers;
CREATE ROLE second IN ROLE readers;
CREATE ROLE evil;
CREATE SCHEMA other;
CREATE COLLATION public.ci (provider = icu, locale = 'und-u-ks-level2', deterministic = false);
CREATE COLLATION other."C" (provider = icu, locale = 'und');
CREATE TYPE mood AS ENUM ('glad', 'sad');
CREATE DOMAIN short_text AS text CHECK (length(VALUE) < 9);
CREATE DOMAIN small_number AS integer CHECK (VALUE < 1000);
GRANT CREATE ON SCHEMA public TO keeper;
GRANT USAGE, CREATE ON SCHEMA other TO keeper;

-- keeper owns what follows, and reader and readers are granted SELECT on all of it
SET ROLE keeper;
ALTER DEFAULT PRIVILEGES FOR ROLE keeper GRANT SELECT ON TABLES TO reader, readers;

-- A policy of each kind that is said as it is; right: the same.
CREATE TABLE plain (
    id integer PRIMARY KEY, s smallint, b bigint, code varchar(8), word text, ok boolean, owner text
);
INSERT INTO plain VALUES
    (1, 1, 1, 'a', E'back\\slash', true, 'reader'), (2, 2, -1, 'b', 'it''s', false, 'second'), (3, -1, 3, 'c', 'Ünï', NULL, 'readers'),
    (4, NULL, NULL, NULL, NULL, true, NULL), (5, -7, 9007199254740993, '', '', false, 'keeper');
CREATE TABLE truth AS SELECT * FROM plain;
ALTER TABLE truth ENABLE ROW LEVEL SECURITY;
CREATE POLICY alone ON truth USING (ok);
CREATE TABLE falsehood AS SELECT * FROM plain;
ALTER TABLE falsehood ENABLE ROW LEVEL SECURITY;
CREATE POLICY alone ON falsehood USING (NOT ok);
CREATE TABLE widths AS SELECT * FROM plain;
ALTER TABLE widths ENABLE ROW LEVEL SECURITY;
CREATE POLICY equal ON widths TO reader USING (s = b);
CREATE POLICY between_them ON widths TO readers USING (b BETWEEN -1 AND 3 OR s = -7);
CREATE TABLE lists AS SELECT * FROM plain;
ALTER TABLE lists ENABLE ROW LEVEL SECURITY;
CREATE POLICY among ON lists TO reader USING (code IN ('a', 'c', ''));
CREATE POLICY others ON lists TO readers USING (s <> ALL (ARRAY[1, -7]));
CREATE TABLE literals AS SELECT * FROM plain;
ALTER TABLE literals ENABLE ROW LEVEL SECURITY;
CREATE POLICY texts ON literals TO reader USING (word = E'back\\slash' OR word = 'it''s' OR word = 'Ünï' OR word = E'tab\there');
CREATE POLICY numbers ON literals TO readers USING (b = 9007199254740993 OR s > -2147483648);
CREATE TABLE arms AS SELECT * FROM plain;
ALTER TABLE arms ENABLE ROW LEVEL SECURITY;
CREATE POLICY of_texts ON arms USING (CASE WHEN ok THEN 'reader' WHEN s > 0 THEN owner ELSE 'none' END = owner);

-- Whose name it is. USER and CURRENT_ROLE are CURRENT_USER; right: the same. SESSION_USER is the role that logged in, which
-- SET ROLE does not change; right: less, for reader.
CREATE TABLE users_own AS SELECT * FROM plain;
ALTER TABLE users_own ENABLE ROW LEVEL SECURITY;
CREATE POLICY by_user ON users_own TO reader USING (owner = USER);
CREATE POLICY by_role ON users_own TO readers USING (owner = CURRENT_ROLE);
CREATE TABLE sessions_own AS SELECT * FROM plain;
ALTER TABLE sessions_own ENABLE ROW LEVEL SECURITY;
CREATE POLICY by_session ON sessions_own TO reader USING (owner = SESSION_USER);
CREATE POLICY by_user ON sessions_own TO readers USING (owner = CURRENT_USER);

-- Names of policies. A restrictive one whose name has a line feed; right: the table is left out. One whose name needs quotes;
-- right: the same, under another name.
CREATE TABLE line_feed (id integer, open boolean);
INSERT INTO line_feed VALUES (1, true), (2, false);
ALTER TABLE line_feed ENABLE ROW LEVEL SECURITY;
CREATE POLICY all_rows ON line_feed USING (true);
CREATE POLICY U&"open\000Apolicy" ON line_feed AS RESTRICTIVE USING (open);
CREATE TABLE quoted (id integer, open boolean);
INSERT INTO quoted VALUES (1, true), (2, false);
ALTER TABLE quoted ENABLE ROW LEVEL SECURITY;
CREATE POLICY p1 ON quoted USING (true);
CREATE POLICY "Open ones; -- alone" ON quoted AS RESTRICTIVE USING (open);

-- Equality under a collation by which 'A' = 'a'; right: less. Order of texts under "C"; right: the same in a database of UTF-8.
-- Order under the default collation, and under a collation "C" of another schema; right: less.
CREATE TABLE folded (id integer, name text COLLATE public.ci);
INSERT INTO folded VALUES (1, 'Ada'), (2, 'ada'), (3, 'bo');
ALTER TABLE folded ENABLE ROW LEVEL SECURITY;
CREATE POLICY equal ON folded USING (name = 'ada');
CREATE TABLE byte_order (id integer, name text COLLATE pg_catalog."C");
INSERT INTO byte_order VALUES (1, 'Z'), (2, 'a'), (3, 'é'), (4, U&'\+01F600'), (5, U&'\FF5E');
ALTER TABLE byte_order ENABLE ROW LEVEL SECURITY;
CREATE POLICY after_a ON byte_order TO reader USING (name >= 'a');
CREATE POLICY after_tilde ON byte_order TO readers USING (name > U&'\FF5E');
CREATE TABLE default_order (id integer, name text);
INSERT INTO default_order VALUES (1, 'Z'), (2, 'a'), (3, 'é');
ALTER TABLE default_order ENABLE ROW LEVEL SECURITY;
CREATE POLICY after_a ON default_order USING (name >= 'a');
CREATE TABLE false_c (id integer, name text COLLATE other."C");
INSERT INTO false_c VALUES (1, 'Z'), (2, 'a'), (3, 'é');
ALTER TABLE false_c ENABLE ROW LEVEL SECURITY;
CREATE POLICY after_a ON false_c USING (name >= 'a');

-- A cast that cuts: 'abc'::varchar(2) is 'ab', 'a'::char(3) is compared without its spaces; right: the rows of 'ab' and 'a', or less.
CREATE TABLE cut (id integer, name text, three char(3));
INSERT INTO cut VALUES (1, 'ab', 'ab'), (2, 'abc', 'abc'), (3, 'a', 'a'), (4, 'a  ', 'a  ');
ALTER TABLE cut ENABLE ROW LEVEL SECURITY;
CREATE POLICY two ON cut TO reader USING (name = 'abc'::varchar(2));
CREATE POLICY padded ON cut TO readers USING (name = 'a'::char(3));
-- The column three is of the type char(3), whose equality is blind to spaces; right: the same, or less.
CREATE TABLE blanks (id integer, three char(3));
INSERT INTO blanks VALUES (1, 'a'), (2, 'ab'), (3, NULL);
ALTER TABLE blanks ENABLE ROW LEVEL SECURITY;
CREATE POLICY padded ON blanks USING (three = 'a');

-- Equality of other types; right: the same, or less.
CREATE TABLE types (id integer, u uuid, m mood, d date, n name, j jsonb, x numeric);
INSERT INTO types VALUES
    (1, '6F1C6A2E-0000-4000-8000-000000000001', 'glad', '2026-01-05', 'reader', NULL, 1.50), (2, NULL, 'sad', 'infinity', 'second', '{}', NULL),
    (3, '6f1c6a2e-0000-4000-8000-00000000000a', NULL, '0044-03-15 BC', NULL, 'null', 'NaN');
CREATE TABLE of_uuid AS SELECT * FROM types;
ALTER TABLE of_uuid ENABLE ROW LEVEL SECURITY;
CREATE POLICY equal ON of_uuid USING (u = '6F1C6A2E000040008000000000000001');
CREATE TABLE of_enum AS SELECT * FROM types;
ALTER TABLE of_enum ENABLE ROW LEVEL SECURITY;
CREATE POLICY equal ON of_enum USING (m = 'glad');
CREATE TABLE of_date AS SELECT * FROM types;
ALTER TABLE of_date ENABLE ROW LEVEL SECURITY;
CREATE POLICY equal ON of_date USING (d = 'Jan 5, 2026');
CREATE TABLE of_name AS SELECT * FROM types;
ALTER TABLE of_name ENABLE ROW LEVEL SECURITY;
CREATE POLICY equal ON of_name USING (n = CURRENT_USER);
-- IS NULL of a column that is left out; right: the same, if it can be said of a column that no role reads, or less.
CREATE TABLE of_null AS SELECT * FROM types;
ALTER TABLE of_null ENABLE ROW LEVEL SECURITY;
CREATE POLICY without_j ON of_null TO reader USING (j IS NULL);
CREATE POLICY with_x ON of_null TO readers USING (x IS NOT NULL);

-- A permissive policy that cannot be said, for some roles alone; right: reader the same; readers and second less. A restrictive
-- one; right: the roles to which it applies less.
CREATE TABLE some_roles AS SELECT * FROM plain;
ALTER TABLE some_roles ENABLE ROW LEVEL SECURITY;
CREATE POLICY said ON some_roles TO reader USING (s > 0);
CREATE POLICY computed ON some_roles TO readers USING (length(word) > 3);
CREATE TABLE some_restricted AS SELECT * FROM plain;
ALTER TABLE some_restricted ENABLE ROW LEVEL SECURITY;
CREATE POLICY all_rows ON some_restricted USING (true);
CREATE POLICY computed ON some_restricted AS RESTRICTIVE TO second USING (s % 2 = 0);

-- Policies that decide nothing that is read: right: the same, which is no row for a table with these alone.
CREATE TABLE for_writers AS SELECT * FROM plain;
ALTER TABLE for_writers ENABLE ROW LEVEL SECURITY;
CREATE POLICY inserts ON for_writers FOR INSERT WITH CHECK (length(word) > 1);
CREATE POLICY updates ON for_writers FOR UPDATE USING (true);
CREATE POLICY checks ON for_writers FOR ALL TO reader WITH CHECK (id > 0);
CREATE POLICY checks_too ON for_writers AS RESTRICTIVE FOR ALL WITH CHECK (id > 0);
CREATE POLICY reads ON for_writers FOR SELECT TO readers USING (id < 3);

-- A policy for pg_database_owner, whose one member is the owner of the database; right: the same, or less.
CREATE TABLE of_database AS SELECT * FROM plain;
ALTER TABLE of_database ENABLE ROW LEVEL SECURITY;
CREATE POLICY of_owner ON of_database TO pg_database_owner USING (id < 3);

-- Kinds of tables. Partitioned, inherited and foreign ones; right: less. An unlogged one; right: the same.
CREATE TABLE parted (id integer, word text) PARTITION BY RANGE (id);
CREATE TABLE parted_low PARTITION OF parted FOR VALUES FROM (0) TO (10);
CREATE TABLE parted_rest PARTITION OF parted DEFAULT;
INSERT INTO parted VALUES (1, 'a'), (20, 'b');
CREATE TABLE parent (id integer, word text);
CREATE TABLE child (extra integer) INHERITS (parent);
INSERT INTO parent VALUES (1, 'parent');
INSERT INTO child VALUES (2, 'child', 3);
CREATE UNLOGGED TABLE unlogged AS SELECT * FROM plain;
-- Names of tables and columns; right: the table order, and the column "Other one", are left out, and all else is the same.
CREATE TABLE "order" (id integer, word text);
INSERT INTO "order" VALUES (1, 'a');
CREATE TABLE named (id integer, "Other one" text, word text);
INSERT INTO named VALUES (1, 'a', 'b');
-- Columns; right: the same, where the type of a domain is that below it, or less. No row has what is gone.
CREATE TABLE shapes (
    id integer GENERATED ALWAYS AS IDENTITY, gone text, word short_text, number small_number, three char(3),
    twice integer GENERATED ALWAYS AS (number * 2) STORED
);
INSERT INTO shapes (gone, word, number, three) VALUES ('hidden', 'a', 1, 'x'), ('hidden', NULL, 2, NULL);
ALTER TABLE shapes DROP COLUMN gone;
ALTER TABLE shapes ENABLE ROW LEVEL SECURITY;
CREATE POLICY of_domain ON shapes TO reader USING (word = 'a' OR number = 2);
CREATE POLICY of_generated ON shapes TO readers USING (twice > 2);

-- Views, a function and another schema are ways round, which the report names among what it does not cover: the owner's view shows
-- all rows of secret, to reader too, and one with security_invoker none.
CREATE TABLE secret (id integer, word text, extra jsonb);
INSERT INTO secret VALUES (1, 'a', '{}'), (2, 'b', NULL);
ALTER TABLE secret ENABLE ROW LEVEL SECURITY;
REVOKE SELECT ON secret FROM readers;
CREATE VIEW shows AS SELECT id, word FROM secret;
CREATE VIEW asks WITH (security_invoker = true) AS SELECT id, word FROM secret;
CREATE VIEW shows_view AS SELECT id FROM shows;
CREATE MATERIALIZED VIEW kept AS SELECT id, word FROM secret;
CREATE FUNCTION tells() RETURNS SETOF secret LANGUAGE sql STABLE SECURITY DEFINER AS 'SELECT * FROM public.secret';
CREATE TABLE other.elsewhere AS SELECT * FROM secret;

-- The owner's SELECT is revoked; right: neither keeper nor who is granted nothing reads it, and reader the same, or less.
CREATE TABLE owner_revoked AS SELECT * FROM plain;
REVOKE SELECT ON owner_revoked FROM keeper;
RESET ROLE;
GRANT USAGE ON SCHEMA other TO reader;

-- A superuser owns a table and has its SELECT revoked; it reads by being a superuser, and its member does not; right: chief the same.
-- Of a table of chief's, where it has SELECT, its member reads all rows; right: the same.
CREATE ROLE chief SUPERUSER;
CREATE ROLE chiefs_member IN ROLE chief;
CREATE TABLE chief_revoked AS SELECT * FROM plain;
ALTER TABLE chief_revoked OWNER TO chief;
REVOKE SELECT ON chief_revoked FROM chief;
CREATE TABLE chiefs AS SELECT * FROM plain;
ALTER TABLE chiefs OWNER TO chief;
ALTER TABLE chiefs ENABLE ROW LEVEL SECURITY;
CREATE POLICY first ON chiefs TO PUBLIC USING (id = 1);

-- holder may not read its own table; its member is granted SELECT, and has the owner's way past row security. Right: holder nothing,
-- and holders_member all rows, or less.
CREATE ROLE holder;
CREATE ROLE holders_member IN ROLE holder;
CREATE TABLE held AS SELECT * FROM plain;
ALTER TABLE held OWNER TO holder;
REVOKE SELECT ON held FROM holder;
GRANT SELECT (id, ok) ON held TO holders_member;
ALTER TABLE held ENABLE ROW LEVEL SECURITY;
CREATE POLICY first ON held TO PUBLIC USING (id = 1);

-- The names of roles and tables are texts of whoever may create them. Right: none of these can be said; evil reads guarded and not
-- secret, no statement or fact is made of a name, and the report has no line that is not its own.
CREATE ROLE "x'; GRANT SELECT ON secret TO evil; --";
CREATE ROLE U&"y\000Agrant\001Fsecret\001Fevil\001F";
CREATE ROLE U&"z\000Anot covered: 0";
CREATE ROLE maker;
CREATE TABLE guarded AS SELECT * FROM plain;
ALTER TABLE guarded OWNER TO keeper;
GRANT SELECT ON guarded TO evil, "x'; GRANT SELECT ON secret TO evil; --", U&"y\000Agrant\001Fsecret\001Fevil\001F", U&"z\000Anot covered: 0";
-- Names that need quotes, or are reserved words here; right: these two are left out and named, and of_upper the same.
CREATE ROLE "Upper";
CREATE ROLE "left";
CREATE ROLE of_upper IN ROLE "Upper";
GRANT SELECT (id, ok) ON guarded TO "Upper", "left";
GRANT CREATE ON SCHEMA public TO maker;
SET ROLE maker;
CREATE TABLE U&"t\000Agrant\001Fsecret\001Fevil\001F" (id integer, U&"c\000Agrant\001Fsecret\001Fevil\001F" text);
CREATE TABLE "u'; GRANT SELECT ON secret TO evil; --" (id integer);
CREATE TABLE """; DROP TABLE secret; --" (id integer);
CREATE TABLE makers (id integer, "w (id bigint); GRANT SELECT ON secret TO evil; --" integer);
INSERT INTO makers VALUES (1, 2);
RESET ROLE;

-- outside is granted SELECT on plain, and has no USAGE of the schema, which its member has; right: outside reads nothing and
-- outsiders_member reads plain.
CREATE ROLE outside;
CREATE ROLE outsiders_member IN ROLE outside;
GRANT SELECT ON plain TO outside;
-- Rights of predefined roles; right: all_data the same, which is all rows of tables without row security, and those of policies TO
-- PUBLIC; watcher the same.
CREATE ROLE all_data IN ROLE pg_read_all_data;
CREATE ROLE watcher IN ROLE pg_monitor;
CREATE TABLE watched AS SELECT * FROM plain;
ALTER TABLE watched OWNER TO keeper;
GRANT SELECT (id, word) ON watched TO pg_monitor;
ALTER TABLE watched ENABLE ROW LEVEL SECURITY;
CREATE POLICY of_monitor ON watched TO pg_read_all_stats USING (ok);
-- The one grant of half is on a column that is left out; right: half reads nothing, and is named.
CREATE ROLE half;
GRANT SELECT (j) ON types TO half;
-- A member without INHERIT has the rights of its group by SET ROLE alone; right: the same, which is nothing, and a line of what is not
-- covered. So is one for a role that may make itself a member of others.
CREATE ROLE lazy NOINHERIT IN ROLE readers;
GRANT SELECT (id) ON plain TO lazy;
CREATE ROLE admin CREATEROLE;
GRANT SELECT (id) ON plain TO admin;
-- A role root is the superuser root of the export, if it is one: right: the same. A plain one is left out, and named.
\if :{?plain_root}
CREATE ROLE root;
\else
CREATE ROLE root SUPERUSER;
\endif
GRANT SELECT (id) ON plain TO root;
-- A foreign table; right: less. Its wrapper has no handler, so that nobody reads it.
CREATE FOREIGN DATA WRAPPER nothing;
CREATE SERVER nowhere FOREIGN DATA WRAPPER nothing;
CREATE FOREIGN TABLE far (id integer) SERVER nowhere;
GRANT SELECT ON far TO reader;

-- USAGE of the schema is for some, and not for outside; all_data has it by its predefined role.
REVOKE USAGE ON SCHEMA public FROM PUBLIC;
GRANT USAGE ON SCHEMA public TO keeper, reader, readers, evil, chief, chiefs_member, holder, holders_member, maker;
GRANT USAGE ON SCHEMA public TO outsiders_member, watcher, half, lazy, admin, root, "Upper", "left";
GRANT USAGE ON SCHEMA public TO "x'; GRANT SELECT ON secret TO evil; --", U&"y\000Agrant\001Fsecret\001Fevil\001F", U&"z\000Anot covered: 0";
