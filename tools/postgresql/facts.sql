-- The facts of a database that an export goes by, as one JSON document. Roles are numbers (0 is PUBLIC) but in "roles"; of the
-- tables, views, columns, policies and indexes only those of the schema that is asked for are here, where nothing else is said.
WITH
    asked AS (SELECT * FROM pg_catalog.pg_namespace WHERE nspname = :'schema'),
    own AS (SELECT n.oid, n.nspname, n.nspname !~ '^pg_' AND n.nspname <> 'information_schema' AS is_own FROM pg_catalog.pg_namespace n),
    database AS (SELECT * FROM pg_catalog.pg_database WHERE datname = pg_catalog.current_database()),
    -- texts under a collation are in the order of their bytes in the encoding of the server
    collations AS (
        SELECT l.oid, n.nspname, l.collname, l.collisdeterministic,
            CASE l.collprovider
                WHEN 'd' THEN COALESCE(pg_catalog.to_jsonb(d) ->> 'datlocprovider', 'c') = 'c' AND d.datcollate IN ('C', 'POSIX')
                    OR pg_catalog.to_jsonb(d) ->> 'datlocprovider' = 'b'
                WHEN 'c' THEN l.collcollate IN ('C', 'POSIX')
                WHEN 'b' THEN true
                ELSE false
            END AS is_by_bytes
        FROM pg_catalog.pg_collation l JOIN pg_catalog.pg_namespace n ON n.oid = l.collnamespace, database d
    ),
    -- a domain is what it is over
    bases AS (
        WITH RECURSIVE step (oid, base) AS (
            SELECT oid, oid FROM pg_catalog.pg_type
            UNION ALL
            SELECT s.oid, t.typbasetype FROM step s JOIN pg_catalog.pg_type t ON t.oid = s.base WHERE t.typtype = 'd'
        )
        SELECT s.oid, t.oid AS base, t.typtype, t.typname, n.nspname
        FROM step s JOIN pg_catalog.pg_type t ON t.oid = s.base JOIN pg_catalog.pg_namespace n ON n.oid = t.typnamespace
        WHERE t.typtype <> 'd'
    ),
    relations AS (
        SELECT c.*, c.oid AS number, COALESCE(c.relacl, pg_catalog.acldefault('r', c.relowner)) AS rights
        FROM pg_catalog.pg_class c WHERE c.relkind IN ('r', 'p', 'f', 'm', 'v')
    ),
    tables AS (SELECT r.* FROM relations r JOIN asked n ON n.oid = r.relnamespace WHERE r.relkind <> 'v')
SELECT pg_catalog.json_build_object(
    'server', (
        SELECT pg_catalog.json_build_object(
            'version', pg_catalog.current_setting('server_version_num')::integer,
            'encoding', pg_catalog.pg_encoding_to_char(encoding),
            'owner', datdba::bigint
        ) FROM database
    ),
    'schema', (
        SELECT pg_catalog.json_build_object(
            'usage', (
                SELECT pg_catalog.json_agg(x.grantee::bigint)
                FROM pg_catalog.aclexplode(COALESCE(nspacl, pg_catalog.acldefault('n', nspowner))) x WHERE x.privilege_type = 'USAGE'
            )
        ) FROM asked
    ),
    'roles', (
        SELECT pg_catalog.json_agg(pg_catalog.json_build_object(
            'role', oid::bigint, 'name', rolname, 'is_predefined', oid < 16384 AND oid <> 10,
            'is_superuser', rolsuper, 'bypasses', rolbypassrls, 'creates_roles', rolcreaterole, 'replicates', rolreplication
        ) ORDER BY rolname) FROM pg_catalog.pg_roles
    ),
    'memberships', (
        SELECT pg_catalog.json_agg(pg_catalog.json_build_object(
            'group', a.roleid::bigint, 'member', a.member::bigint,
            'inherits', COALESCE((pg_catalog.to_jsonb(a) ->> 'inherit_option')::boolean, m.rolinherit),
            'sets', COALESCE((pg_catalog.to_jsonb(a) ->> 'set_option')::boolean, true), 'is_admin', a.admin_option
        ) ORDER BY a.roleid, a.member)
        FROM pg_catalog.pg_auth_members a JOIN pg_catalog.pg_roles m ON m.oid = a.member
    ),
    'collations', (
        SELECT pg_catalog.json_agg(pg_catalog.json_build_object(
            'schema', nspname, 'name', collname, 'is_deterministic', collisdeterministic, 'is_by_bytes', is_by_bytes
        )) FROM collations WHERE is_by_bytes OR NOT collisdeterministic
    ),
    'tables', (
        SELECT pg_catalog.json_agg(pg_catalog.json_build_object(
            'table', number::bigint, 'name', relname, 'owner', relowner::bigint, 'kind', relkind,
            'has_row_security', relrowsecurity, 'is_forced', relforcerowsecurity,
            'inherits', relispartition OR EXISTS (SELECT FROM pg_catalog.pg_inherits i WHERE number IN (i.inhrelid, i.inhparent)),
            'readers', (SELECT pg_catalog.json_agg(x.grantee::bigint) FROM pg_catalog.aclexplode(rights) x WHERE x.privilege_type = 'SELECT')
        ) ORDER BY relname) FROM tables
    ),
    'columns', (
        SELECT pg_catalog.json_agg(pg_catalog.json_build_object(
            'table', t.number::bigint, 'name', a.attname, 'is_not_null', a.attnotnull,
            'written', pg_catalog.format_type(a.atttypid, NULL),
            'type', b.typname, 'type_schema', b.nspname, 'type_kind', b.typtype, 'base', pg_catalog.format_type(b.base, NULL),
            'is_deterministic', COALESCE(l.collisdeterministic, true), 'is_by_bytes', COALESCE(l.is_by_bytes, false),
            'readers', (SELECT pg_catalog.json_agg(x.grantee::bigint) FROM pg_catalog.aclexplode(a.attacl) x WHERE x.privilege_type = 'SELECT')
        ) ORDER BY t.relname, a.attnum)
        FROM tables t
        JOIN pg_catalog.pg_attribute a ON a.attrelid = t.number
        JOIN bases b ON b.oid = a.atttypid
        LEFT JOIN collations l ON l.oid = a.attcollation
        WHERE a.attnum > 0 AND NOT a.attisdropped
    ),
    -- those that SELECT goes by, each with what it calls that is not PostgreSQL's own
    'policies', (
        SELECT pg_catalog.json_agg(pg_catalog.json_build_object(
            'table', t.number::bigint, 'name', p.polname, 'is_permissive', p.polpermissive,
            'roles', pg_catalog.to_json(p.polroles::bigint[]), 'condition', pg_catalog.pg_get_expr(p.polqual, p.polrelid),
            'calls', (
                SELECT pg_catalog.json_agg(DISTINCT pg_catalog.pg_describe_object(d.refclassid, d.refobjid, d.refobjsubid))
                FROM pg_catalog.pg_depend d
                WHERE d.classid = 'pg_catalog.pg_policy'::regclass AND d.objid = p.oid
                    AND d.refclassid IN ('pg_catalog.pg_proc'::regclass, 'pg_catalog.pg_operator'::regclass)
            )
        ) ORDER BY t.relname, p.polname)
        FROM pg_catalog.pg_policy p JOIN tables t ON t.number = p.polrelid
        WHERE p.polcmd IN ('r', '*') AND p.polqual IS NOT NULL
    ),
    'indexes', (
        SELECT pg_catalog.json_agg(pg_catalog.json_build_object(
            'table', t.number::bigint, 'name', i.relname, 'column', a.attname
        ) ORDER BY t.relname, i.relname)
        FROM pg_catalog.pg_index x
        JOIN tables t ON t.number = x.indrelid
        JOIN pg_catalog.pg_class i ON i.oid = x.indexrelid
        JOIN pg_catalog.pg_am m ON m.oid = i.relam
        JOIN pg_catalog.pg_attribute a ON a.attrelid = t.number AND a.attnum = x.indkey[0]
        WHERE m.amname = 'btree' AND x.indnatts = 1 AND x.indpred IS NULL AND x.indexprs IS NULL AND x.indisvalid
    ),
    -- of all schemas: what each view reads
    'views', (
        SELECT pg_catalog.json_agg(pg_catalog.json_build_object(
            'view', v.number::bigint, 'name', v.relname, 'schema', n.nspname, 'owner', v.relowner::bigint,
            'is_materialized', v.relkind = 'm',
            'is_invoker', COALESCE(EXISTS (
                SELECT FROM pg_catalog.pg_options_to_table(v.reloptions) o
                WHERE o.option_name = 'security_invoker' AND o.option_value IN ('true', 'on', 'yes', '1')
            ), false),
            'readers', (
                SELECT pg_catalog.json_agg(DISTINCT x.grantee::bigint) FROM (
                    SELECT y.grantee FROM pg_catalog.aclexplode(v.rights) y WHERE y.privilege_type = 'SELECT'
                    UNION ALL
                    SELECT y.grantee FROM pg_catalog.pg_attribute a, pg_catalog.aclexplode(a.attacl) y
                    WHERE a.attrelid = v.number AND NOT a.attisdropped AND y.privilege_type = 'SELECT'
                ) x
            ),
            'reads', (
                SELECT pg_catalog.json_agg(DISTINCT d.refobjid::bigint)
                FROM pg_catalog.pg_rewrite r JOIN pg_catalog.pg_depend d
                    ON d.classid = 'pg_catalog.pg_rewrite'::regclass AND d.objid = r.oid AND d.refclassid = 'pg_catalog.pg_class'::regclass
                WHERE r.ev_class = v.number AND d.refobjid <> v.number
            )
        ) ORDER BY n.nspname, v.relname)
        FROM relations v JOIN own n ON n.oid = v.relnamespace WHERE v.relkind IN ('v', 'm') AND n.is_own
    ),
    -- of all schemas: functions that run with their owner's rights
    'functions', (
        SELECT pg_catalog.json_agg(pg_catalog.json_build_object(
            'name', p.proname, 'schema', n.nspname, 'arguments', pg_catalog.pg_get_function_identity_arguments(p.oid),
            'owner', p.proowner::bigint,
            'callers', (
                SELECT pg_catalog.json_agg(DISTINCT x.grantee::bigint)
                FROM pg_catalog.aclexplode(COALESCE(p.proacl, pg_catalog.acldefault('f', p.proowner))) x WHERE x.privilege_type = 'EXECUTE'
            )
        ) ORDER BY n.nspname, p.proname, p.oid)
        FROM pg_catalog.pg_proc p JOIN own n ON n.oid = p.pronamespace WHERE p.prosecdef AND n.is_own
    ),
    'schemas', (
        SELECT pg_catalog.json_agg(pg_catalog.json_build_object('name', nspname, 'tables', tables) ORDER BY nspname)
        FROM (
            SELECT n.nspname, count(*) AS tables
            FROM relations r JOIN own n ON n.oid = r.relnamespace
            WHERE n.is_own AND r.relkind <> 'v' AND n.nspname <> :'schema' GROUP BY n.nspname
        ) x
    )
);
