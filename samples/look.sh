#!/bin/sh
# A first look: builds om without proving anything, which takes a minute or two, and executes a program that gcc and the GNU
# assembler made for Alpha, rewritten by the link. What it shows is what the program does; that it does so for every input is what
# the proofs are for. Needs the kit's `rt` alone.
set -eu
top=$(cd "$(dirname "$0")/.." && pwd)
files="data/start.o data/even.o data/main.o data/odd.o data/work.o data/io.o data/str.o data/sys.o data/div.o"
cd "$top/crates/om_cli"
echo "om exec $files"
rt try -- exec $files || echo "status $?"
