#!/usr/bin/env bash
# Looks whether the definitions that have to be read first stand within 100 columns, and ends with 1 where a line doesn't.
cd "$(dirname "$0")/.." || exit 1
failures=0
for crate in plx_base plx_geom plx_gate plx_disk plx_commands plx_rules law_run plx_text; do
    for file in crates/"$crate"/specs/*.antt; do
        # Without the further bytes of its characters a line has as many bytes as columns.
        LC_ALL=C tr -d '\200-\277' < "$file" | LC_ALL=C awk -v file="$file" '
            length > 100 { print "columns.sh: " file ":" NR ": " length " columns" > "/dev/stderr"; wide = 1 }
            END { exit wide }' || failures=1
    done
done
exit "$failures"
