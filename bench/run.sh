#!/usr/bin/env bash
# The benchmark: the least processor time, user and system together, that the program and its three peers take
# for scripts of 1,000,000 lines, and what `wc -l` takes for them, with the multiples of that. They run in turns, many rounds, and
# write their transcripts to /dev/null. Nothing here is a test: times differ from run to run.
#
#   LINES_EACH   how many lines a script has      ROUNDS   how many rounds
#   SCRIPTS      some of the scripts, by name     PROGRAM  another program than bin/rt1553
set -euo pipefail
cd "$(dirname "$0")/.."
source bench/prepare.sh
lines=${LINES_EACH:-1000000} rounds=${ROUNDS:-25}

# the processor time of a command, in microseconds
processor_time() { python3 bench/processor_time.py "$@"; }

# measures each contender once for a script, and keeps the least of its times: measure SCRIPT
measure() {
    local contender spent
    for contender in "${contenders[@]}" lines; do
        if [[ $contender == lines ]]; then
            spent=$(processor_time wc -l "$work/$1.script")
        else
            spent=$(processor_time "$work/$contender" run "$work/profile.toml" "$work/$1.script")
        fi
        if [[ -z ${least[$contender]:-} || $spent -lt ${least[$contender]} ]]; then least[$contender]=$spent; fi
    done
}

in_milliseconds() { quotient "$1" 1000; }

prepare "$lines"
echo "milliseconds of processor time for $lines lines, the least of $rounds rounds"
row='%-10s %9s %9s %9s %9s %9s %13s %14s %18s %11s %8s %9s %13s\n'
# shellcheck disable=SC2059
printf "$row" script program best tuned idiomatic 'wc -l' program/best program/tuned program/idiomatic program/wc best/wc tuned/wc idiomatic/wc
for script in "${scripts[@]}"; do
    demand_same_transcript "$script"
    declare -A least=()
    for ((round = 0; round < rounds; round++)); do measure "$script"; done
    # shellcheck disable=SC2059
    printf "$row" "$script" "$(in_milliseconds "${least[program]}")" "$(in_milliseconds "${least[best]}")" \
        "$(in_milliseconds "${least[tuned]}")" "$(in_milliseconds "${least[idiomatic]}")" "$(in_milliseconds "${least[lines]}")" \
        "$(quotient "${least[program]}" "${least[best]}")" "$(quotient "${least[program]}" "${least[tuned]}")" \
        "$(quotient "${least[program]}" "${least[idiomatic]}")" "$(quotient "${least[program]}" "${least[lines]}")" \
        "$(quotient "${least[best]}" "${least[lines]}")" "$(quotient "${least[tuned]}" "${least[lines]}")" \
        "$(quotient "${least[idiomatic]}" "${least[lines]}")"
done
