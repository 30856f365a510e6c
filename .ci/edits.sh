#!/usr/bin/env bash
# The must-fail edits of edits/NAME/: wrong programs of the crate NAME, each of which the prover has to refuse.
#   edits.sh [NAME..]   tries those of all crates, or of these, on a copy of the repository, over what the gate has proved on this
#                       machine. Where all of a crate's are refused, edits/NAME/refused becomes the sum of the files that they were
#                       tried on. An edit is refused where a clause or an obligation isn't proved. Where a proof file only names what
#                       is gone, or can't be read, it is not tried: that says nothing of the contract.
#   edits.sh --tried    looks whether each edit can be applied, and whether each crate's were refused on the files as they stand:
#                       no file of the crate, of a crate below it or of its edits has changed since.
# Ends with 1 where one isn't so.
cd "$(dirname "$0")/.." || exit 1

# fits EDIT: each text that the edit takes away stands once in its file.
fits() {
    local crate file line times fits=0
    crate=crates/$(basename "$(dirname "$1")")
    while IFS= read -r line; do
        case $line in
            "file: "*) file=$crate/${line#file: } ;;
            "old: "*)
                times=$(grep -oF -- "${line#old: }" "$file" | wc -l)
                if [ "$times" -ne 1 ]; then
                    echo "edits.sh: $1: this stands $times times in $file: ${line#old: }" >&2
                    fits=1
                fi
                ;;
        esac
    done < "$1"
    return $fits
}

# lines_of NAME: the lines of crates.txt of the crate and of those below it.
lines_of() {
    awk -v name="$1" '
        function visit(crate,    words, count, i) {
            if (!(crate in line) || seen[crate]++) return
            print line[crate]
            count = split(line[crate], words, " ")
            for (i = 2; i <= count; i++) visit(words[i])
        }
        /^[a-z]/ { crate = $1; sub(":", "", crate); line[crate] = $0 }
        END { visit(name) }' crates.txt | LC_ALL=C sort
}

# sum_of NAME: the sum of all that the edits of the crate are tried on.
sum_of() {
    {
        lines_of "$1"
        {
            ls "edits/$1"/*.edit
            lines_of "$1" | cut -d: -f1 | while read -r crate; do
                find "crates/$crate/src" "crates/$crate/specs" "crates/$crate/proofs" -type f 2>/dev/null
            done
        } | LC_ALL=C sort | xargs sha256sum
    } | sha256sum | cut -d' ' -f1
}

# What is told first of an edit where a clause or an obligation isn't proved: that it isn't, or that the answer to a goal or the
# proof of a lemma, named in front, isn't one.
unproved='note: [^ ]+: it is not proved that |[^ ]+\.antt:[0-9]+:[0-9]+: error: `[^`]+`: ('
unproved+='expected type |list the missing equation |(as printed|computed as [a-z ]+), (the two types|one side) |`(omega|grind|search|simp|refl)`)'

# is_refused NAME/EDIT: it was told of the edit that a clause or an obligation isn't proved. Says what was told where it wasn't.
is_refused() {
    local told
    told=$(grep -F "must-fail $1: " "$room/told" | tail -n 1)
    told=${told#*"must-fail $1: "}
    if grep -qE "^refused, as it must be: ($unproved)" <<< "$told"; then
        return 0
    fi
    echo "edits.sh: $1: not tried: ${told:-nothing was told}" >&2
    return 1
}

if [ "${1-}" = --tried ]; then
    failures=0
    for edit in edits/*/*.edit; do
        fits "$edit" || failures=1
    done
    for folder in edits/*; do
        name=$(basename "$folder")
        if [ "$(sum_of "$name")" != "$(cat "$folder/refused" 2>/dev/null)" ]; then
            echo "edits.sh: the edits of $name were not tried on its files as they stand: run .ci/edits.sh $name" >&2
            failures=1
        fi
    done
    [ "$failures" -ne 0 ] || echo "edits.sh: $(ls edits/*/*.edit | wc -l) edits fit, and were refused on the files as they stand"
    exit "$failures"
fi

room=$(mktemp -d) || exit 1
trap 'rm -rf "$room"' EXIT
tar -c --anchored --no-wildcards-match-slash --exclude='crates/*/out' crates edits crates.txt HANDLES | tar -x -C "$room" || exit 1
names=("$@")
[ "$#" -gt 0 ] || names=($(ls edits))
rm -rf "$room"/crates/*/must-fail
for name in "${names[@]}"; do
    mkdir "$room/crates/$name/must-fail" || exit 1
    cp "edits/$name"/*.edit "$room/crates/$name/must-fail/" || exit 1
done
(cd "$room" && rt ci "${names[@]}") 2>&1 | tee "$room/told"
failures=0
for name in "${names[@]}"; do
    untried=0
    for edit in edits/"$name"/*.edit; do
        is_refused "$name/$(basename "$edit")" || untried=$((untried + 1))
    done
    if [ "$untried" -eq 0 ]; then
        (cd "$room" && sum_of "$name") > "edits/$name/refused"
    else
        failures=1
    fi
done
exit "$failures"
