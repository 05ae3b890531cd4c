# shellcheck shell=bash disable=SC2034
# Sourced by the two benchmarks: builds the program and its peers and makes the scripts. It sets `work`, a
# temporary folder that holds the peers, the scripts and their profile, and `program`. PROGRAM names another
# program to measure, and then nothing is built but the peers. SCRIPTS names some of the scripts.

work=$(mktemp -d)
trap 'rm -rf "$work"' EXIT

contenders=(program best tuned idiomatic)
read -ra scripts <<<"${SCRIPTS:-receive transmit single status mixed slots comments}"

# makes all that is measured, with scripts of so many lines: prepare LINES
prepare() {
    local peer
    if [[ -z ${PROGRAM:-} ]]; then make --silent build >/dev/null; fi
    program=$(realpath "${PROGRAM:-bin/rt1553}")
    for peer in tuned idiomatic make_scripts; do
        rustc --edition 2021 -O "bench/peer/$peer.rs" -o "$work/$peer"
    done
    # for the processors that the program is built for
    rustc --edition 2021 -O -C target-cpu=x86-64-v2 bench/peer/best.rs -o "$work/best"
    ln -s "$program" "$work/program"
    "$work/make_scripts" "$work" "$1"
}

# runs a contender over a script: play CONTENDER SCRIPT
play() { "$work/$1" run "$work/profile.toml" "$work/$2.script"; }

# ends with a message unless all contenders give the same transcript of a script: demand_same_transcript SCRIPT
demand_same_transcript() {
    local contender sum first=
    for contender in "${contenders[@]}"; do
        if ! sum=$(play "$contender" "$1" | sha256sum); then
            echo "$1: $contender does not play it" >&2
            exit 1
        fi
        if [[ $sum != "${first:=$sum}" ]]; then
            echo "$1: $contender does not give the transcript that ${contenders[0]} gives" >&2
            exit 1
        fi
    done
}

# the quotient of two whole numbers, to two places
quotient() { awk -v a="$1" -v b="$2" 'BEGIN { if (b > 0) printf "%.2f", a / b; else printf "-" }'; }
