#!/usr/bin/env bash
# Installs the tools that are missing: need.sh NAME.., where import:NAME is a package of Debian's python3
# As root on Debian it installs their packages and says so in a line; else it prints the line that does. The status is 0 where all are there.
set -u
declare -A packages=(
    [python3]=python3 [pip3]=python3-pip [gcc]='gcc libc6-dev' [cc]='gcc libc6-dev' [c++]=g++ [cargo]=cargo [rustc]=rustc [git]=git
    [script]=bsdutils [ar]=binutils [ld]=binutils [objcopy]=binutils [objdump]=binutils [dpkg-deb]=dpkg [dpkg-shlibdeps]=dpkg-dev
    [aarch64-linux-gnu-gcc]='gcc-aarch64-linux-gnu libc6-dev-arm64-cross' [aarch64-linux-gnu-g++]=g++-aarch64-linux-gnu
    [pytest-3]=python3-pytest [import:xdist]=python3-pytest-xdist [import:jsonschema]=python3-jsonschema
    [shellcheck]=shellcheck [pyflakes3]=pyflakes3 [qemu-aarch64]=qemu-user [groff]=groff-base [mandoc]=mandoc [aspell]='aspell aspell-en' [vim]=vim [debootstrap]=debootstrap [chromium]=chromium [valgrind]=valgrind
)
# whether a tool is there
has() { if [[ $1 == import:* ]]; then /usr/bin/python3 -c "${1/:/ }" 2>/dev/null; else command -v "$1" >/dev/null; fi; }

wanted=()
for name in "$@"; do
    has "$name" || for it in ${packages[$name]:-}; do [[ " ${wanted[*]} " == *" $it "* ]] || wanted+=("$it"); done
done
if ((${#wanted[@]})); then
    if ((EUID == 0)) && command -v apt-get >/dev/null; then
        echo "installing: ${wanted[*]}"
        while sleep 25 >/dev/null 2>&1; do echo "still installing"; done &
        { apt-get update && DEBIAN_FRONTEND=noninteractive DEBCONF_NOWARNINGS=yes apt-get install -y --no-install-recommends "${wanted[@]}"; } >/dev/null ||
            echo "that failed: it takes the Debian archive, over the network" >&2
        kill $!
    else
        echo "missing; as root: apt-get install ${wanted[*]}" >&2
    fi
fi
status=0
for name in "$@"; do
    has "$name" && continue
    status=1
    if [[ $name == rt ]]; then name='rt, the command of the Rattle toolchain: README.md, "What it needs and what it costs"'; fi
    echo "missing: $name" >&2
done
exit $status
