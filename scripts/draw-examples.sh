#!/usr/bin/env bash
# Draws the scripts of examples/messages anew.
#
#     scripts/draw-examples.sh TOOL
set -eu
tool=$(realpath "$1")
cd "$(dirname "$0")/../examples/messages"
for script in *.script; do
    "$tool" draw terminal.toml "$script" >"${script%.script}.svg"
done
