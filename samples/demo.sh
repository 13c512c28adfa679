#!/bin/sh
# Links, runs and lists a program that gcc and the GNU assembler made for Alpha, without rewriting and at the usual level, says what
# it does, and shows what the link saved. Proves and builds om first, unless OM names it. Needs the kit's `rt`, Python 3 and
# Debian's base system.
set -eu
if [ -z "${OM:-}" ]; then
    echo "0. Proving and building om. The first time every function of the program is proved, which takes half an"
    echo "   hour and more on four processors; after that a proof is made again only for what has changed."
fi
. "$(dirname "$0")/build_om.sh"

cp "$top"/crates/om_cli/data/*.o .
files="start.o even.o main.o odd.o work.o io.o str.o sys.o div.o"

echo
echo "1. Linking nine objects (crates/om_cli/data) of a C program of recursive functions:"
echo "   om link -o recur $files"
"$om" link -o recur $files
echo "   status $?"

echo
echo "2. Running the image, which exits with 62:"
echo "   om run recur"
"$om" run recur || echo "   status $?"

echo
echo "3. The same objects linked word for word, and that image run:"
echo "   om link -O0 -o plain $files; om run plain"
"$om" link -O0 -o plain $files
"$om" run plain || echo "   status $?"

echo
echo "4. What became of addresses: lines of the listing of the first image. Each has object, offset, old word, new word or"
echo "   'gone', and the instruction; the last line has the totals:"
echo "   om list recur"
"$om" list recur >lines
head -n 12 lines
echo "   .."
tail -n 1 lines

echo
echo "5. What the link saved:"
python3 -B "$top/samples/saved.py" "$om" $files

echo
echo "6. The same program without addresses, on a machine on which no pointer is a number:"
echo "   om sim $files"
"$om" sim $files || echo "   status $?"

echo
echo "7. What om says of objects that are no program:"
echo "   om link -o nothing start.o main.o"
"$om" link -o nothing start.o main.o || echo "   status $?"
