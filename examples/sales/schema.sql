CREATE ROLE boss; CREATE ROLE audit BYPASSRLS; CREATE ROLE sales;
CREATE ROLE alice; CREATE ROLE bob; CREATE ROLE guest; CREATE ROLE lone;
GRANT sales TO alice; GRANT sales TO bob;
CREATE TABLE deal (id bigint, owner text, region bigint, amount bigint, parts bigint);
ALTER TABLE deal OWNER TO boss; ALTER TABLE deal ENABLE ROW LEVEL SECURITY;
CREATE POLICY own ON deal FOR SELECT TO sales USING (owner = CURRENT_USER);
GRANT SELECT ON deal TO sales; GRANT SELECT ON deal TO audit; GRANT SELECT (id) ON deal TO guest;
CREATE TABLE region (id bigint, name text); GRANT SELECT ON region TO PUBLIC;
