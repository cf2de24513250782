#!/bin/sh
# Measures what README.md tells of speed, and prints it as the table that stands there, with the machine, the kit and the commit.
#   bench/all.sh [PROGRAM [WORDS]]    PROGRAM is a built mrt; where none is named, that of this checkout, which is built. WORDS go to shapes.py
# It times each form on four shapes of 4,096 nodes and of half of them, beside sha256sum of the largest file that the form reads or writes. Run it on
# a machine that does nothing else; it takes some ten minutes. What it says of the gate and of the build is what .ci/run left beside the program.
here=$(dirname "$(readlink -f "$0")")
crate=$(dirname "$here")/crates/mrt
if [ $# -gt 0 ]; then
    program=$1
    shift
else
    program=$crate/out/mrt
    "$here/../mrt" check "$crate/data/router.lsas" - "$crate/data/router.cert" >/dev/null || exit
fi

# The first value of a field of /proc/cpuinfo or /proc/meminfo.
field() {
    sed -n "s/^$1[[:space:]]*:[[:space:]]*//p" "$2" | head -n 1
}

# A line that is kept of the program under a word.
kept() {
    sed -n "s/^$1 //p" "$program.built" 2>/dev/null | tail -n 1
}

memory=$(field MemTotal /proc/meminfo)
commit=$(git -C "$here" rev-parse --short HEAD 2>/dev/null || echo "not known")
echo "Measured on $(LC_ALL=C date -u '+%-d %B %Y'): $(nproc) processors ($(field 'model name' /proc/cpuinfo)),"
echo "$((${memory% kB} / 1000000)) GB, $(uname -sm); scripts of commit $commit."
if [ -f "$program.built" ] && [ "$(kept program)" = "$(sha256sum <"$program" | cut -d ' ' -f 1)" ]; then
    echo "The program is of commit $(kept commit), kit: $(kept kit)."
    gate=$(kept 'gate rt ci:')
    [ -n "$gate" ] && echo "Its gate: $gate; tests of the tools: $(kept 'gate tools/test:')." || echo "Its gate has not passed, or has not run."
else
    echo "Nothing is kept of how the program was built or of its gate ($program.built); $(rt version 2>/dev/null | head -n 1)."
fi
echo
echo "A cell has milliseconds, and the multiple of what sha256sum takes of the largest file that the form reads or writes. Then come megabytes at the"
echo "peak, their multiple of that file, and how many times longer twice the nodes take."
echo
# (no survey is of these networks)
forms=certify,check,upgrade,table,trace,fabric-ten,proxy,lfa,order,flood
PYTHONPATH=$(dirname "$here") exec python3 -m bench.measure.shapes --program "$program" --shapes ring,mesh,chain-of-rings,spur --forms $forms --markdown --check "$@"
