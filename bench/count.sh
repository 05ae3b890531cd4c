#!/usr/bin/env bash
# The benchmark in instructions: how many the program and its three peers take for scripts of 100,000 lines, as
# callgrind (of valgrind) counts them. The counts hardly differ from run to run; they are no times.
#
#   LINES_EACH   how many lines a script has      PROGRAM  another program than bin/rt1553
#   SCRIPTS      some of the scripts, by name
set -euo pipefail
cd "$(dirname "$0")/.."
source bench/prepare.sh
lines=${LINES_EACH:-100000}

# the instructions of a contender for a script: instructions CONTENDER SCRIPT
instructions() {
    valgrind --tool=callgrind --callgrind-out-file=/dev/null --log-file="$work/valgrind" \
        "$work/$1" run "$work/profile.toml" "$work/$2.script" >/dev/null
    sed -nE 's/^==[0-9]+== Collected : ([0-9]+)$/\1/p' "$work/valgrind"
}

prepare "$lines"
echo "instructions for $lines lines"
row='%-10s %12s %12s %12s %12s %13s %14s %18s\n'
# shellcheck disable=SC2059
printf "$row" script program best tuned idiomatic program/best program/tuned program/idiomatic
for script in "${scripts[@]}"; do
    demand_same_transcript "$script"
    declare -A count=()
    for contender in "${contenders[@]}"; do count[$contender]=$(instructions "$contender" "$script"); done
    # shellcheck disable=SC2059
    printf "$row" "$script" "${count[program]}" "${count[best]}" "${count[tuned]}" "${count[idiomatic]}" \
        "$(quotient "${count[program]}" "${count[best]}")" "$(quotient "${count[program]}" "${count[tuned]}")" "$(quotient "${count[program]}" "${count[idiomatic]}")"
done
