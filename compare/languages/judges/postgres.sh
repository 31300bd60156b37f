#!/usr/bin/env bash
# The judge of PostgreSQL: its parser, in single-user mode. A number is a sign and a token.
set -euo pipefail
work=$(mktemp -d)
trap 'rm -rf "$work"' EXIT
cat > "$work/texts"
as=()
if [ "$(id -u)" = 0 ]; then
    as=(runuser -u postgres --)
    chown -R postgres "$work"
fi
bin=$(pg_config --bindir)
"${as[@]}" "$bin/initdb" -D "$work/data" -A trust -E UTF8 > /dev/null
"${as[@]}" "$bin/postgres" --single -j -D "$work/data" postgres > "$work/log" <<SQL
CREATE FUNCTION value(text) RETURNS text LANGUAGE plpgsql AS \$\$
DECLARE result text;
BEGIN EXECUTE 'SELECT (' || \$1 || ')::numeric::text' INTO result; RETURN result;
EXCEPTION WHEN OTHERS THEN RETURN NULL; END \$\$;

CREATE FUNCTION judge(it text) RETURNS text LANGUAGE plpgsql AS \$\$
DECLARE result text := value(it);
BEGIN
    FOR at IN CASE WHEN it ~ '^[-+]' THEN 2 ELSE 1 END .. length(it) - 1 LOOP
        EXIT WHEN result IS NULL;
        IF value(left(it, at) || ' ' || substr(it, at + 1)) IS NOT NULL THEN result := NULL; END IF;
    END LOOP;
    RETURN coalesce('+ ' || result, '-');
END \$\$;

CREATE TABLE texts (number serial, it text);

COPY texts (it) FROM '$work/texts';

COPY (SELECT judge(it) FROM texts ORDER BY number) TO '$work/answers';

SQL
cat "$work/answers"
