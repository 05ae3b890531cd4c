#!/usr/bin/env bash
# Makes an archive of what `make tool` and `make library` leave, with its pages: dist.sh [BUILT [FOLDER]]
# BUILT is a copy of this repository with the same in its bin/, by default this one. The archive is left in FOLDER, by default bin/, with
# its checksum beside it. It prints the archive's name. With TARGET=aarch64 it is the archive for ARM64, of what is in bin/aarch64.
# What `make page` leaves goes with it, if it is there.
#
# The folders are those of the repository, so that the commands of the pages can be typed in the unpacked archive. The same files make
# the same archive, to the byte: each file has the time of the last commit, or that of SOURCE_DATE_EPOCH.
set -euo pipefail
built=$(realpath "${1:-$(dirname "$0")/..}")
cd "$(dirname "$0")/.."
folder=${2:-bin}
bin=bin${TARGET:+/$TARGET}
version=$(python3 scripts/manual.py version)
name=rt1553-$version-linux-${TARGET:-x86_64}
# the processor, as README.txt and Containerfile name it
processor=ARM64 level='' platform=arm64
[[ -n ${TARGET:-} ]] || processor=x86-64 level=', on processors of level v2 (nearly all since 2009),' platform=amd64
glibc=$("${TARGET:+$TARGET-linux-gnu-}gcc" -E -P -include features.h -xc - <<<'__GLIBC__ __GLIBC_MINOR__')
time=${SOURCE_DATE_EPOCH:-$(git log -1 --format=%ct)}
work=$(mktemp -d)
trap 'rm -rf "$work"' EXIT
to=$work/$name

for file in rt1553 rt1553.o rt1553-tool rt1553-tool.o library; do
    if [[ ! -e $built/$bin/$file ]]; then
        echo "$bin/$file isn't there: run 'make tool' and 'make library' first, where gcc can link statically" >&2
        exit 1
    fi
done

install -D -m 755 -t "$to/bin" "$built/$bin"/rt1553{,-tool}
install -D -m 644 -t "$to/objects" "$built/$bin"/rt1553{,-tool}.o
tar -c -C "$built/$bin" --exclude=__pycache__ library | tar -x -C "$to/bin"
tar -c --exclude=__pycache__ --exclude=target --exclude=arguments.toml --exclude=words.txt \
    README.md CHANGELOG.md SECURITY.md Containerfile docs editors examples library/rust manual scripts/install.sh | tar -x -C "$to"
sed -i "s/amd64/$platform/" "$to/Containerfile"
sed -e "s/@VERSION@/$version/; s/@GLIBC@/glibc ${glibc/ /.}/; s/@PROCESSOR@/$processor/; s/@LEVEL@/$level/" -e '1{p;s/./=/g;}' >"$to/README.txt" <<'END'
rt1553 @VERSION@ for Linux on @PROCESSOR@

A remote terminal of MIL-STD-1553B with Notice 2: two programs, and a library for C, C++, Python and
Rust. README.md says what it does, docs/proofs.md says what is proved. Everything is built: you need
no toolchain.

The programs run on any Linux on @PROCESSOR@@LEVEL@ and need
no other file. The library needs glibc 2.17 or later, the Python package Python 3.9 or later, and
the Rust crates Rust 1.63 or later. On macOS and Windows use a Linux container or virtual machine for
@PROCESSOR@; Containerfile makes a container of the programs.

The owner has given no licence yet: all rights are reserved. The programs hold the GNU C Library
(@GLIBC@), whose licence is the LGPL, version 2.1 or later: https://www.gnu.org/licenses/. It asks
who passes them on to say so, to add the text of that licence and the source of that library or an
offer of it, and the objects with which they can be linked to a changed one, and to permit changes
for one's own use and reverse engineering to find the faults of these. This links them:

    gcc -static-pie -Wl,-z,relro,-z,now -o rt1553 objects/rt1553.o
    gcc -static-pie -Wl,-z,relro,-z,now -o rt1553-tool objects/rt1553-tool.o

SECURITY.md says where to report faults.

Check that the archive is complete. This prints nothing if it is:

    $ sha256sum --quiet -c SHA256SUMS

Try it in this folder. You need not install anything; the last command takes Python:

    $ printf 'A c 2c02\nA gap\nslot\n' | bin/rt1553
    A s 2800
    $ printf 'c 2c02\n' | bin/rt1553-tool words
    mode 5 2 tx # transmit status word
    $ PYTHONPATH=bin/library/python python3 -c 'import rt1553; print(rt1553.check("address = 5"))'
    None

The folders are those of the repository, so you can type the commands of README.md, docs/tutorial.md
and docs/library.md here. `make`, crates/, tests/ and the other scripts are in the repository alone.

Install it in a folder of your own. Without PREFIX it goes to /usr/local, for which you have to be
root:

    PREFIX=$HOME/.local bash scripts/install.sh install

`uninstall` in place of `install` removes it. To build a package, set DESTDIR too, the folder before
PREFIX.

Install the Python package alone, in a virtual environment (on Debian that takes python3-venv):

    python3 -m venv rt1553-python && rt1553-python/bin/pip install bin/library/rt1553-*.whl

What is where:

    bin/rt1553, bin/rt1553-tool   the programs
    objects/                      the same without the C library, to link them with another one
    bin/library/                  headers, the static and the shared library, the Python package and its wheel: docs/library.md
    library/rust/                 the crates rt1553-sys and rt1553, which find the library in bin/library
    manual/                       man pages, and completions for bash, zsh and fish
    editors/                      the schema of profiles, and colours for scripts: editors/README.md
    docs/                         the pages that README.md lists, and the schemas of JSON output
    examples/                     profiles, scripts and programs to start from: examples/README.md
END
if [[ -e $built/$bin/rt1553.html ]]; then
    install -m 644 -t "$to/bin" "$built/$bin/rt1553.html"
    echo '    bin/rt1553.html               the terminal in a web browser, in one file that needs no network' >>"$to/README.txt"
fi
(cd "$to" && find . ! -type d ! -name SHA256SUMS -printf '%P\n' | LC_ALL=C sort | xargs -d '\n' sha256sum >"$work/SHA256SUMS")
mv "$work/SHA256SUMS" "$to"

mkdir -p "$folder"
LC_ALL=C tar -c --format=ustar --sort=name --owner=0 --group=0 --numeric-owner --mode=u=rwX,go=rX --mtime="@$time" -C "$work" "$name" |
    gzip -9n >"$folder/$name.tar.gz"
(cd "$folder" && sha256sum "$name.tar.gz" >"$name.tar.gz.sha256")
echo "$folder/$name.tar.gz"
