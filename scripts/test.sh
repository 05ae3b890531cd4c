#!/usr/bin/env bash
# Tests what is built. First scripts/build.py brings it up to date with the files, and takes what was proved on this machine as proved; then
# tests/test_*.py run, but those that are the gate's alone. What isn't built is told, with the command that builds it.
#
# With GATE=1 it is the gate: it proves all crates anew (`rt ci`), tries the must-fail edits meanwhile, links both programs as they are
# shipped, and runs all tests over both builds of them. Of the edits only those are tried that tests/edits.record does not cover. The gate
# fails where one is neither tried nor covered. Edits that an earlier run on this machine refused over the same files are not tried again,
# but with ANEW=1.
#
# The line before the last says how long it took. The last line, 'N passed, M failed', adds the counts of the parts.
set -uo pipefail
cd "$(dirname "$0")/.." || exit 1
work=$(mktemp -d) || exit 1
built=$work/built edits='' passed=0 failed=0
trap '[[ -z $edits ]] || kill -- "-$edits" 2>/dev/null; rm -rf "$work"' EXIT
unset TARGET

# how many the last line of a part says of these words: said WORDS
said() { tail -n 1 "$work/log" | grep -oE "[0-9]+ ($1)" | awk '{ sum += $1 } END { print sum + 0 }'; }

# runs a part, and adds the counts of its last line; one that fails or passes nothing counts as a failure: part COMMAND..
part() {
    local status here
    "$@" </dev/null 2>&1 | tee "$work/log"
    status=${PIPESTATUS[0]} here=$(said 'failed|errors?')
    [[ $here -gt 0 || ($status -eq 0 && $(said passed) -gt 0) ]] || here=1
    passed=$((passed + $(said passed))) failed=$((failed + here))
    echo "so far, $((SECONDS / 60)) minutes after the start: $passed passed, $failed failed"
}

# a toolchain that keeps what passed has a word by which it takes none of it: of a program it keeps no object, which link.sh needs
mapfile -t anew < <(rt --help 2>&1 | grep -o -e --anew | head -n 1)
proved() { (cd "$built" && rt ci "${anew[@]}") 2>&1 | tee "$work/proofs"; }

# links a program as it is shipped, with the C library inside; its object beside it says that it is: linked CRATE NAME
linked() { bash scripts/link.sh "$built/crates/$1/out/$1.o" "$built/bin/$2" && [[ -e $built/bin/$2.o ]] && echo '1 passed'; }

gate() {
    python3 scripts/build.py copy "$built" && mkdir "$built/bin" || exit 1
    # the edits get what all else leaves of the processors: in a group of their own, but one session with the rest, since between sessions
    # Linux shares the processors alike, however nice they are
    : >"$work/proofs"
    set -m
    TMPDIR=$work nice -n 19 python3 scripts/must-fail.py gate "$built" "$work/proofs" >"$work/edits" 2>&1 </dev/null &
    edits=$!
    set +m
    part proved
    # what was not proved is not run, and its edits tell nothing
    [[ $failed -eq 0 ]] || return
    part linked rt1553_program rt1553
    part linked rt1553_tool_program rt1553-tool
    part pytest-3 -q -n auto --built="$built" tests
    wait "$edits"
    edits=''
    # where another toolchain refused all of them, none was tried, and that is told
    if [[ $(tail -n 1 "$work/edits") == '0 passed, 0 failed' ]]; then cat "$work/edits"; else part cat "$work/edits"; fi
}

if [[ -n ${GATE:-} ]]; then
    gate
elif python3 scripts/build.py again; then
    part pytest-3 -q -n auto tests
    python3 scripts/must-fail.py told
else
    failed=1
fi
times >"$work/times"
tail -n 1 "$work/times" | awk -v clock="$SECONDS" -F '[ms ]+' '{ printf "took %.1f minutes, %.1f of processor time\n", clock / 60, $1 + $2 / 60 + $3 + $4 / 60 }'
echo "$passed passed, $failed failed"
[[ $failed -eq 0 && $passed -gt 0 ]]
