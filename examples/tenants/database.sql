-- A service that many firms share: each row has the tenant that it is of. A firm's people log in as roles of their own, which are
-- members of the role of the firm; the service itself logs in as service, and sets app.tenant for each request.
CREATE ROLE saas;
CREATE ROLE service;
CREATE ROLE support BYPASSRLS;
CREATE ROLE billing;
CREATE ROLE auditors NOLOGIN;
CREATE ROLE tenants NOLOGIN;
CREATE ROLE acme IN ROLE tenants;
CREATE ROLE bolt IN ROLE tenants;
CREATE ROLE cargo IN ROLE tenants;
CREATE ROLE ann IN ROLE acme;
CREATE ROLE abe IN ROLE acme;
CREATE ROLE bea IN ROLE bolt;
CREATE ROLE carl IN ROLE cargo, auditors;
-- dora takes the role of her firm by SET ROLE alone
CREATE ROLE dora NOINHERIT IN ROLE cargo;
GRANT CREATE ON SCHEMA public TO saas;

-- saas owns all
SET ROLE saas;
CREATE TYPE plan AS ENUM ('free', 'team', 'firm');
CREATE TYPE state AS ENUM ('open', 'doing', 'done');
CREATE TABLE tenant (
    id uuid PRIMARY KEY, name text NOT NULL UNIQUE, role_name text NOT NULL, plan plan NOT NULL DEFAULT 'free', since date NOT NULL,
    settings jsonb NOT NULL DEFAULT '{}', deleted boolean NOT NULL DEFAULT false
);
CREATE TABLE users (
    id bigint GENERATED ALWAYS AS IDENTITY PRIMARY KEY, login text NOT NULL UNIQUE, email text, password_hash text NOT NULL,
    created timestamptz NOT NULL, active boolean NOT NULL DEFAULT true
);
CREATE TABLE membership (
    user_id bigint NOT NULL REFERENCES users, tenant_id uuid NOT NULL REFERENCES tenant, tenant_role text NOT NULL,
    is_admin boolean NOT NULL DEFAULT false, PRIMARY KEY (user_id, tenant_id)
);
CREATE TABLE project (
    id bigint PRIMARY KEY, tenant_id uuid NOT NULL REFERENCES tenant, tenant_role text NOT NULL, title varchar(80) NOT NULL,
    secret boolean NOT NULL DEFAULT false, deleted boolean NOT NULL DEFAULT false, lead text, starts date
);
CREATE TABLE task (
    id bigint PRIMARY KEY, project_id bigint NOT NULL REFERENCES project, tenant_role text NOT NULL, title text NOT NULL,
    state state NOT NULL DEFAULT 'open', assignee text, priority smallint, due date, deleted boolean NOT NULL DEFAULT false, extra jsonb
);
CREATE TABLE comment (
    id bigint PRIMARY KEY, task_id bigint NOT NULL REFERENCES task, tenant_role text NOT NULL, author text, body text NOT NULL,
    internal boolean, written timestamptz NOT NULL
);
CREATE TABLE invoice (
    id bigint PRIMARY KEY, tenant_id uuid NOT NULL REFERENCES tenant, cents bigint NOT NULL, currency char(3) NOT NULL DEFAULT 'EUR',
    issued date NOT NULL, paid boolean
);
CREATE TABLE audit_log (
    id bigint PRIMARY KEY, tenant_role text, actor text NOT NULL, level integer NOT NULL, happened timestamptz NOT NULL, details jsonb
);
CREATE INDEX project_tenant ON project (tenant_role);
CREATE INDEX task_project ON task (project_id);
CREATE INDEX task_state ON task (state) WHERE NOT deleted;

INSERT INTO tenant VALUES
    ('a0000000-0000-4000-8000-000000000001', 'Acme GmbH', 'acme', 'firm', '2021-04-01', '{"sso": true}', false),
    ('b0000000-0000-4000-8000-000000000002', 'Bolt & Sons', 'bolt', 'team', '2023-11-15', DEFAULT, false),
    ('c0000000-0000-4000-8000-000000000003', 'Cargo "Blue"', 'cargo', 'free', '2025-02-28', DEFAULT, true);
INSERT INTO users (login, email, password_hash, created, active) VALUES
    ('ann', 'ann@acme.example', 'x1', '2021-04-02 08:00+02', true), ('abe', 'abe@acme.example', 'x2', '2021-05-01 09:30+02', true),
    ('bea', NULL, 'x3', '2023-11-15 12:00+01', true), ('carl', 'carl@cargo.example', 'x4', '2025-03-01 00:00+00', false),
    ('dora', 'dora@cargo.example', 'x5', '2025-03-02 00:00+00', true);
INSERT INTO membership
SELECT u.id, t.id, t.role_name, u.login IN ('ann', 'bea') FROM users u
JOIN tenant t ON t.role_name = CASE WHEN u.login LIKE 'a%' THEN 'acme' WHEN u.login = 'bea' THEN 'bolt' ELSE 'cargo' END;
INSERT INTO project VALUES
    (1, 'a0000000-0000-4000-8000-000000000001', 'acme', 'Website', false, false, 'ann', '2026-01-05'),
    (2, 'a0000000-0000-4000-8000-000000000001', 'acme', 'Merger', true, false, 'abe', NULL),
    (3, 'a0000000-0000-4000-8000-000000000001', 'acme', 'Old site', false, true, 'ann', '2022-06-01'),
    (4, 'b0000000-0000-4000-8000-000000000002', 'bolt', 'Bolts, nuts', false, false, 'bea', '2026-02-01'),
    (5, 'c0000000-0000-4000-8000-000000000003', 'cargo', 'Überfahrt', false, false, NULL, '2025-03-03');
INSERT INTO task
SELECT n, 1 + n % 5, (ARRAY['acme', 'acme', 'acme', 'bolt', 'cargo'])[1 + n % 5], 'task ' || n,
    (ARRAY['open', 'doing', 'done'])[1 + n % 3]::state, (ARRAY['ann', 'abe', 'bea', 'carl', NULL])[1 + n % 5], n % 4,
    CASE WHEN n % 6 > 0 THEN date '2026-01-01' + n END, n % 7 = 0, CASE WHEN n % 2 = 0 THEN '{"estimate": 3}'::jsonb END
FROM generate_series(1, 30) n;
INSERT INTO comment
SELECT n, 1 + n % 30, t.tenant_role, t.assignee, 'said "' || n || '", twice', CASE n % 3 WHEN 0 THEN true WHEN 1 THEN false END,
    timestamptz '2026-01-01 00:00+00' + n * interval '1 hour'
FROM generate_series(1, 40) n JOIN task t ON t.id = 1 + n % 30;
INSERT INTO invoice
SELECT n, t.id, 990 * n, DEFAULT_CURRENCY.code, date '2026-01-31' + n, CASE WHEN n % 4 > 0 THEN n % 2 = 0 END
FROM generate_series(1, 12) n JOIN tenant t ON t.role_name = (ARRAY['acme', 'bolt', 'cargo'])[1 + n % 3],
    (VALUES ('EUR')) AS DEFAULT_CURRENCY (code);
INSERT INTO audit_log
SELECT n, (ARRAY['acme', 'bolt', NULL])[1 + n % 3], 'service', n % 4, timestamptz '2026-01-01 00:00+00' + n * interval '1 minute', '{}'
FROM generate_series(1, 24) n;

-- each firm its own rows; what is deleted is gone for all but the owner and support
ALTER TABLE tenant ENABLE ROW LEVEL SECURITY;
CREATE POLICY own ON tenant TO tenants USING (pg_has_role(CURRENT_USER, role_name::name, 'USAGE'));
CREATE POLICY billed ON tenant TO billing USING (plan <> 'free');
ALTER TABLE users ENABLE ROW LEVEL SECURITY;
CREATE POLICY self ON users FOR SELECT USING (login = CURRENT_USER);
CREATE POLICY living ON users AS RESTRICTIVE TO tenants USING (active);
ALTER TABLE project ENABLE ROW LEVEL SECURITY;
CREATE POLICY of_acme ON project TO acme USING (tenant_role = 'acme') WITH CHECK (tenant_role = 'acme' AND length(title) > 0);
CREATE POLICY of_bolt ON project TO bolt USING (tenant_role = 'bolt');
CREATE POLICY of_cargo ON project TO cargo USING (tenant_role = 'cargo');
CREATE POLICY not_deleted ON project AS RESTRICTIVE TO PUBLIC USING (NOT deleted);
CREATE POLICY secrets ON project AS RESTRICTIVE TO tenants USING (NOT secret OR lead = CURRENT_USER);
ALTER TABLE task ENABLE ROW LEVEL SECURITY;
ALTER TABLE task FORCE ROW LEVEL SECURITY;
CREATE POLICY of_owner ON task TO saas USING (true);
CREATE POLICY of_acme ON task TO acme USING (tenant_role = 'acme');
CREATE POLICY of_bolt ON task TO bolt USING (tenant_role IN ('bolt') AND (priority IS NULL OR priority BETWEEN 0 AND 2));
CREATE POLICY assigned ON task TO cargo USING (assignee = CURRENT_USER);
CREATE POLICY not_deleted ON task AS RESTRICTIVE USING (NOT deleted);
CREATE POLICY written ON task FOR INSERT TO tenants WITH CHECK (assignee IS NOT NULL);
-- the service sees the tenant of its session
CREATE POLICY of_session ON task TO service USING (tenant_role = current_setting('app.tenant', true));
ALTER TABLE comment ENABLE ROW LEVEL SECURITY;
CREATE POLICY of_task ON comment TO tenants USING (EXISTS (SELECT FROM task t WHERE t.id = task_id));
CREATE POLICY auditing ON comment TO auditors USING (internal IS NOT NULL AND NOT internal);
ALTER TABLE invoice ENABLE ROW LEVEL SECURITY;
CREATE POLICY of_billing ON invoice TO billing USING (CASE WHEN paid IS NULL THEN true ELSE NOT paid END OR cents >= 5000);
CREATE POLICY of_tenant ON invoice TO tenants
    USING (tenant_id IN (SELECT m.tenant_id FROM membership m JOIN users u ON u.id = m.user_id WHERE u.login = CURRENT_USER));
ALTER TABLE audit_log ENABLE ROW LEVEL SECURITY;
CREATE POLICY of_auditors ON audit_log TO auditors USING (level >= 2);

GRANT SELECT ON tenant, membership, project, task, comment, invoice TO tenants;
GRANT SELECT (id, login, email, active) ON users TO tenants;
GRANT SELECT ON ALL TABLES IN SCHEMA public TO support;
GRANT SELECT (id, tenant_id, cents, issued, paid) ON invoice TO billing;
GRANT SELECT (id, name, plan, settings) ON tenant TO billing;
GRANT SELECT ON task, project, membership TO service;
GRANT SELECT ON audit_log TO auditors;
GRANT SELECT (id, task_id, internal, written) ON comment TO auditors;
-- support is not shown the hashes, nor who said what
REVOKE SELECT ON users, comment FROM support;
GRANT SELECT (id, login, email, created, active) ON users TO support;

-- the owner's view passes by the policies, for whoever may read it; the second asks as its reader
CREATE VIEW open_task AS SELECT id, title, assignee FROM task WHERE state <> 'done';
CREATE VIEW my_task WITH (security_invoker = true) AS SELECT id, title, due FROM task WHERE assignee = CURRENT_USER;
GRANT SELECT ON open_task, my_task TO tenants;
CREATE FUNCTION tasks_of(firm text) RETURNS bigint LANGUAGE sql STABLE SECURITY DEFINER SET search_path = public, pg_temp
    AS $$ SELECT count(*) FROM task WHERE tenant_role = firm $$;

RESET ROLE;
