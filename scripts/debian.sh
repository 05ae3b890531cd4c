#!/usr/bin/env bash
# The archive of `make dist` on Debian 12, with Debian's packages alone: scripts/debian.sh [ARCHIVE]
#
# debootstrap makes a root, and a user there unpacks ARCHIVE, by default the one in bin/. Played are README.txt, README.md and
# docs/tutorial.md with no package added but python3, which plays them; then, with the packages that docs/library.md names, that page,
# the commands of README.txt that are in no session, and a program over the installed library. It needs root, the network and some
# minutes, so the gate does not run it. The last line is 'N passed, M failed'.
set -uo pipefail
here=$(dirname "$0")
archive=$(realpath -e "${1:-$here/../bin/rt1553-$(python3 "$here/manual.py" version)-linux-x86_64.tar.gz}") || exit 1
bash "$here/need.sh" debootstrap || exit 1
work=$(mktemp -d) || exit 1
trap 'rm -rf "$work"' EXIT
root=$work/root top=/home/$(basename "$archive" .tar.gz) passed=0 failed=0

# runs a line in a folder of the root, as root, 0, or the user, 1000: by ID FOLDER LINE. It counts as one row, or as the sessions it plays
by() {
    local status
    unshare --fork --pid --kill-child --mount-proc --root="$root" --setgid "$1" --setuid "$1" --wd="$2" \
        env -i HOME=/home PATH=/usr/local/bin:/usr/bin:/usr/sbin:/bin:/sbin bash -c "$3" >"$work/log" 2>&1 </dev/null
    status=$?
    if [[ $(tail -n 1 "$work/log") =~ ^([1-9][0-9]*)\ passed,\ ([0-9]+)\ failed$ ]]; then
        passed=$((passed + BASH_REMATCH[1])) failed=$((failed + BASH_REMATCH[2]))
    elif ((status == 0)); then passed=$((passed + 1)); else failed=$((failed + 1)); fi
    ((status == 0)) || { echo "FAILED: $3"; cat "$work/log"; }
}

debootstrap --variant=minbase --include=python3 bookworm "$root" >"$work/log" || { cat "$work/log"; exit 1; }
cp "$here/../tests/sessions.py" "$root/srv" && cp "$archive" "$root/home" && chown 1000:1000 "$root/home" || exit 1
by 1000 /home "tar -xf ${archive##*/}"
by 1000 "$top" 'python3 /srv/sessions.py . README.txt README.md docs/tutorial.md'
by 0 / "$(grep -o 'apt-get install [^`]*' "$root$top/docs/library.md") --yes --no-install-recommends"
by 1000 "$top" 'python3 /srv/sessions.py . docs/library.md'
while read -r line; do by 1000 "$top" "$line"; done < <(grep -E '^    (gcc|PREFIX=|python3)' "$root$top/README.txt")
by 0 "$top" 'bash scripts/install.sh install && ldconfig'
# pkg-config runs in the root
# shellcheck disable=SC2016
by 1000 "$top" 'cc -o try/installed examples/library/first.c $(pkg-config --cflags --libs rt1553) && try/installed'
echo "$passed passed, $failed failed"
[[ $failed -eq 0 && $passed -gt 0 ]]
