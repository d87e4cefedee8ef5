-- A clinic, as PostgreSQL runs it: six roles with memberships, tables under policies, and what rowplan cannot say.
CREATE ROLE clinic;
CREATE ROLE doctors;
CREATE ROLE nurses;
CREATE ROLE ana;
CREATE ROLE ben;
CREATE ROLE inspector BYPASSRLS;
GRANT doctors TO ana;
GRANT nurses TO ben;

CREATE TABLE ward (id integer PRIMARY KEY, name text NOT NULL);
CREATE TABLE patient (id bigint PRIMARY KEY, name varchar(40), ward integer, doctor text, released boolean NOT NULL);
CREATE TABLE visit (id bigint PRIMARY KEY, patient bigint, doctor text, minutes smallint, note text, held date, extra jsonb);
ALTER TABLE ward OWNER TO clinic;
ALTER TABLE patient OWNER TO clinic;
ALTER TABLE visit OWNER TO clinic;
CREATE INDEX visit_patient ON visit (patient);

INSERT INTO ward VALUES (1, 'north'), (2, 'south'), (3, '');
INSERT INTO patient VALUES
    (1, 'Ada', 1, 'ana', false), (2, 'Bo "Bobby"', 1, 'ana', true), (3, 'Cy', 2, 'carl', false), (4, 'Di', NULL, 'carl', false),
    (5, NULL, 2, NULL, true);
INSERT INTO visit VALUES
    (10, 1, 'ana', 30, 'first, and last', '2026-01-05', '{"paid": true}'), (11, 1, 'ana', NULL, E'two\nlines', '2026-01-06', NULL),
    (12, 2, 'ana', -5, 'said "no"', NULL, NULL), (13, 3, 'carl', 60, '', '2026-02-01', '[]'), (14, 4, 'carl', 15, NULL, NULL, NULL),
    (15, 5, 'ana', 0, 'both', '2026-03-03', NULL);

-- a doctor sees her own patients, a nurse those of two wards who are still there; nobody sees one without a name
ALTER TABLE patient ENABLE ROW LEVEL SECURITY;
CREATE POLICY of_doctor ON patient FOR SELECT TO doctors USING (doctor = CURRENT_USER);
CREATE POLICY of_ward ON patient TO nurses USING (ward IN (1, 2) AND NOT released);
CREATE POLICY named ON patient AS RESTRICTIVE USING (name IS NOT NULL);
-- only its trigger writes it
CREATE POLICY written ON patient FOR INSERT TO clinic WITH CHECK (length(name) > 1);

-- FORCE: the owner sees what its own policy lets it
ALTER TABLE visit ENABLE ROW LEVEL SECURITY;
ALTER TABLE visit FORCE ROW LEVEL SECURITY;
CREATE POLICY own ON visit TO doctors USING (doctor = CURRENT_USER OR minutes BETWEEN -10 AND 0);
CREATE POLICY long ON visit TO clinic USING (minutes > 20 AND doctor <> ALL (ARRAY['ben', 'carla']));

GRANT SELECT ON ward TO PUBLIC;
GRANT SELECT ON patient TO doctors, inspector;
GRANT SELECT (id, ward, released) ON patient TO nurses;
GRANT SELECT ON visit TO doctors, inspector;
GRANT SELECT (id, patient) ON visit TO nurses;

-- what rowplan cannot say: a policy with a query, and a text that is its mark of null
CREATE TABLE referral (id bigint, patient bigint);
ALTER TABLE referral OWNER TO clinic;
ALTER TABLE referral ENABLE ROW LEVEL SECURITY;
CREATE POLICY of_patient ON referral TO doctors USING (patient IN (SELECT id FROM patient));
CREATE TABLE remark (id bigint, body text);
ALTER TABLE remark OWNER TO clinic;
INSERT INTO remark VALUES (1, '\N');
