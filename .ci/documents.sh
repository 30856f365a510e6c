#!/usr/bin/env bash
# Looks whether docs/DEFINITIONS.md names each file of definitions, and ends with 1 where it doesn't.
cd "$(dirname "$0")/.." || exit 1
failures=0
for file in crates/*/specs/*.antt; do
    name=$(basename "$file")
    [ "$name" = Lib.antt ] && continue
    if ! grep -qE "(^|[^A-Za-z])${name%.antt}\.antt" docs/DEFINITIONS.md; then
        echo "documents.sh: docs/DEFINITIONS.md doesn't name $file" >&2
        failures=1
    fi
done
exit "$failures"
