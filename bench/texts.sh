#!/usr/bin/env bash
# Processor time of whole runs of the program over texts, beside that of a reader of TOML alone: the canonical
# bytes of the largest profile file, and two largest canonical texts compared. A run of the program that refuses
# its words shows what a process costs. RUNS tells how many runs are timed at once.
set -eu
cd "$(dirname "$0")/.."
runs=${RUNS:-200}
work=$(mktemp -d)
trap 'rm -rf "$work"' EXIT

if [[ -z ${PROGRAM:-} ]]; then make --silent build >/dev/null; fi
[[ -x crates/probes/out/probes ]] || (cd crates/probes && rt run </dev/null >/dev/null 2>&1)
program=$(realpath "${PROGRAM:-bin/rt1553}")
probes=$(realpath crates/probes/out/probes)

# A profile file of 1,048,576 bytes with as many entries as there may be, each of its own kind of legality, the rest
# a comment.
{
    printf 'address = 5\nbroadcast = true\n'
    for k in {1..256}; do
        printf '[[rule]]\nto = "both"\ndirection = "both"\nsubaddresses = "1-30"\ncounts = "1 - %d, 32"\nlegal = true\n' $((k % 31 + 1))
        printf '[[mode]]\nto = "both"\ncodes = "0-31"\n'
        printf '[[initial]]\nsubaddress = %d\nwords = [' $((k % 30 + 1))
        printf '%d, ' {1..31}
        printf '0x%04x]\n' "$k"
    done
} >"$work/entries"
{
    cat "$work/entries"
    head -c $((1048576 - $(wc -c <"$work/entries") - 1)) /dev/zero | tr '\0' '#'
    printf '\n'
} >"$work/largest"
[[ $(wc -c <"$work/largest") -eq 1048576 ]]
"$program" canon "$work/largest" >"$work/canonical"
# another text of as many bytes: the last word differs
sed '$ s/.$/f/' "$work/canonical" >"$work/other"

# milliseconds of processor time of one run, as the mean of many: each NAME COMMAND..
each() {
    local name=$1 spent
    shift
    TIMEFORMAT='%U %S'
    spent=$({ time for ((k = 0; k < runs; k++)); do "$@" >/dev/null 2>&1 || true; done; } 2>&1)
    awk -v name="$name" -v runs="$runs" '{ printf "%-44s %8.3f ms\n", name, ($1 + $2) * 1000 / runs }' <<<"$spent"
}

read_toml() { "$probes" toml <"$1"; }

each 'words refused' "$program" no such words
each "canon, $(wc -c <"$work/largest") bytes" "$program" canon "$work/largest"
each 'the same read as TOML alone' read_toml "$work/largest"
each "canon, $(wc -c <"$work/entries") bytes of entries" "$program" canon "$work/entries"
each 'the same read as TOML alone' read_toml "$work/entries"
each "compare, two texts of $(wc -c <"$work/canonical") bytes" "$program" compare "$work/canonical" "$work/other"
