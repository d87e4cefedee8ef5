-- A bank with branches: customers see their own accounts, tellers those of their branch, managers their region; auditors see all.
-- The number of transfers is 1,000, or what psql is told by -v transfers=200000.
\if :{?transfers}
\else
    \set transfers 1000
\endif
CREATE ROLE bank;
CREATE ROLE tellers;
CREATE ROLE managers IN ROLE tellers;
CREATE ROLE customers;
CREATE ROLE auditor BYPASSRLS;
CREATE ROLE regulator;
CREATE ROLE intern IN ROLE tellers;
CREATE ROLE tina IN ROLE tellers;
CREATE ROLE tom IN ROLE tellers;
CREATE ROLE mia IN ROLE managers;
CREATE ROLE cleo IN ROLE customers;
CREATE ROLE cem IN ROLE customers;
-- ceyda works at the bank and has an account
CREATE ROLE ceyda IN ROLE customers, tellers;
-- reads every table, under the policies
CREATE ROLE exporter IN ROLE pg_read_all_data;
CREATE ROLE dba SUPERUSER;

CREATE TABLE branch (id integer PRIMARY KEY, city text NOT NULL, region integer NOT NULL, manager text, opened date);
CREATE TABLE teller (login text PRIMARY KEY, branch integer NOT NULL REFERENCES branch, until date, active boolean NOT NULL);
CREATE TABLE customer (
    id bigint PRIMARY KEY, login text UNIQUE, name varchar(60) NOT NULL, branch integer NOT NULL REFERENCES branch,
    branch_manager text, branch_teller text, tax_number text, vip boolean
);
CREATE TABLE account (
    id bigint PRIMARY KEY, customer bigint NOT NULL REFERENCES customer, login text, branch integer NOT NULL REFERENCES branch,
    cents bigint NOT NULL, rate numeric(6, 4), frozen boolean NOT NULL DEFAULT false, kind text NOT NULL CHECK (kind IN ('giro', 'save'))
);
CREATE TABLE transfer (
    id bigint PRIMARY KEY, source bigint NOT NULL, target bigint NOT NULL, source_login text, target_login text,
    branch smallint NOT NULL, cents bigint NOT NULL, happened timestamp NOT NULL, note text, flagged boolean
);
CREATE TABLE rate (kind text PRIMARY KEY, percent numeric(6, 4) NOT NULL, basis_points integer NOT NULL);
CREATE TABLE limits (branch integer PRIMARY KEY REFERENCES branch, cents bigint NOT NULL);

INSERT INTO branch VALUES (1, 'Kiel', 1, 'mia', '1990-05-01'), (2, 'Bonn', 1, NULL, '2001-09-15'), (3, 'Ulm', 2, 'max', NULL);
INSERT INTO teller VALUES ('tina', 1, NULL, true), ('tom', 2, '2026-12-31', true), ('ceyda', 3, NULL, true), ('intern', 1, NULL, false);
INSERT INTO customer VALUES
    (1, 'cleo', 'Cleo Brandt', 1, 'mia', 'tina', 'DE1', false), (2, 'cem', 'Cem Öztürk', 2, NULL, 'tom', 'DE2', true),
    (3, 'ceyda', 'Ceyda Ak', 1, 'mia', 'tina', NULL, NULL), (4, NULL, 'O''Neill & Co', 3, 'max', 'ceyda', 'DE4', true);
INSERT INTO customer
SELECT n, NULL, 'Customer ' || n, 1 + n % 3, (ARRAY['mia', NULL, 'max'])[1 + n % 3], (ARRAY['tina', 'tom', 'ceyda'])[1 + n % 3],
    'DE' || n, CASE WHEN n % 4 > 0 THEN n % 4 = 1 END
FROM generate_series(5, 40) n;
INSERT INTO account
SELECT n, c.id, c.login, c.branch, (n * 7919) % 500000 - 20000, CASE WHEN n % 2 = 0 THEN 0.0125 END, n % 9 = 0,
    CASE WHEN n % 2 = 0 THEN 'save' ELSE 'giro' END
FROM generate_series(1, 80) n JOIN customer c ON c.id = 1 + n % 40;
INSERT INTO transfer
SELECT n, s.id, t.id, s.login, t.login, s.branch, 100 + (n * 104729::bigint) % 1000000, timestamp '2026-01-01' + n * interval '7 minutes',
    CASE WHEN n % 5 = 0 THEN 'rent, "flat" ' || n WHEN n % 7 = 0 THEN '' END, CASE WHEN n % 11 = 0 THEN true WHEN n % 3 = 0 THEN false END
FROM generate_series(1, :transfers) n JOIN account s ON s.id = 1 + n % 80 JOIN account t ON t.id = 1 + (n * 13 + 5) % 80;
INSERT INTO rate VALUES ('giro', 0.0000, 0), ('save', 0.0125, 125);
INSERT INTO limits VALUES (1, 500000), (2, 250000), (3, 100000);
CREATE INDEX account_customer ON account (customer);
CREATE INDEX transfer_source ON transfer (source);
CREATE INDEX transfer_target ON transfer (target);

-- the bank owns the tables, and is under the policies of what is a customer's
ALTER TABLE branch OWNER TO bank;
ALTER TABLE teller OWNER TO bank;
ALTER TABLE customer OWNER TO bank;
ALTER TABLE account OWNER TO bank;
ALTER TABLE transfer OWNER TO bank;
ALTER TABLE rate OWNER TO bank;
ALTER TABLE limits OWNER TO dba;

ALTER TABLE teller ENABLE ROW LEVEL SECURITY;
CREATE POLICY self ON teller TO tellers USING (login = CURRENT_USER AND active);
CREATE POLICY regulated ON teller TO regulator USING (active);

ALTER TABLE customer ENABLE ROW LEVEL SECURITY;
ALTER TABLE customer FORCE ROW LEVEL SECURITY;
CREATE POLICY self ON customer FOR SELECT TO customers USING (login = CURRENT_USER);
CREATE POLICY of_teller ON customer TO tellers USING (branch_teller = CURRENT_USER);
CREATE POLICY of_manager ON customer TO managers USING (branch_manager = CURRENT_USER);
CREATE POLICY of_bank ON customer TO bank USING (true);
-- tellers leave very important customers to the managers; where it is not known, they may see them
CREATE POLICY no_vip ON customer AS RESTRICTIVE FOR SELECT TO tina, tom, intern USING (vip IS NULL OR NOT vip);

ALTER TABLE account ENABLE ROW LEVEL SECURITY;
ALTER TABLE account FORCE ROW LEVEL SECURITY;
CREATE POLICY own ON account TO customers USING (login = CURRENT_USER AND NOT frozen);
CREATE POLICY of_kiel ON account TO tina USING (branch = 1 AND cents BETWEEN -20000 AND 250000);
CREATE POLICY of_bonn ON account TO tom USING (branch = 2 AND kind <> ALL (ARRAY['save', 'gold']));
CREATE POLICY of_region ON account TO managers USING (branch IN (1, 2));
CREATE POLICY counted ON account TO bank, exporter USING (CASE WHEN frozen THEN cents > 0 ELSE cents >= -10000 END);
CREATE POLICY opened ON account FOR INSERT TO managers WITH CHECK (cents = 0);

ALTER TABLE transfer ENABLE ROW LEVEL SECURITY;
CREATE POLICY own ON transfer FOR SELECT TO customers USING (source_login = CURRENT_USER OR target_login = CURRENT_USER);
CREATE POLICY of_tellers ON transfer FOR SELECT TO tina USING (branch = 1);
CREATE POLICY of_managers ON transfer FOR SELECT TO managers USING (branch <> 3 OR flagged);
CREATE POLICY large ON transfer FOR SELECT TO regulator USING (cents >= 900000 OR flagged IS NOT NULL AND flagged);
CREATE POLICY hidden ON transfer AS RESTRICTIVE FOR SELECT TO tellers USING (flagged IS NULL OR NOT flagged OR CURRENT_USER = 'mia');

-- a limit of its branch alone, which a query finds
ALTER TABLE limits ENABLE ROW LEVEL SECURITY;
CREATE POLICY of_branch ON limits TO tellers USING (branch = (SELECT t.branch FROM teller t WHERE t.login = CURRENT_USER));
CREATE POLICY regulated ON limits TO regulator USING (cents < 500000);

GRANT SELECT ON branch, rate TO PUBLIC;
GRANT SELECT ON teller TO tellers, regulator, auditor;
GRANT SELECT (id, login, name, branch) ON customer TO customers, tellers;
GRANT SELECT (tax_number, vip) ON customer TO managers;
GRANT SELECT ON customer, account, transfer TO auditor;
GRANT SELECT ON account TO customers, tellers;
GRANT SELECT ON transfer TO customers, tellers;
GRANT SELECT (id, source, target, cents, flagged) ON transfer TO regulator;
GRANT SELECT (id, rate, kind) ON account TO regulator;
GRANT SELECT ON limits TO tellers, regulator;
-- the intern learns with the tellers, and does not see sums of transfers
REVOKE SELECT ON transfer FROM tellers;
GRANT SELECT (id, source, target, branch, happened, flagged) ON transfer TO tellers;
GRANT SELECT ON transfer TO tina, managers;
