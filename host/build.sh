#!/bin/sh
# Builds the host's programs into target/host/ of the repository, with a C++ compiler alone.
#
#     host/build.sh [FOLDER]     default: crates/host/out and crates/program/out, where `rt lib` in crates/host and in crates/program
#                                writes the libraries
#
# From the environment: CXX, the compiler (g++), and CXXFLAGS_BASELINE, how it optimises the baseline (-O2).
set -eu
usage() {
    echo "usage: host/build.sh [FOLDER]" >&2
    exit 2
}
[ $# -le 1 ] || usage
case ${1:-} in -*) usage ;; esac
root=$(cd "$(dirname "$0")/.." && pwd)
calls=${1:-$root/crates/host/out}/libhost.a
program=${1:-$root/crates/program/out}/libprogram.a
for library in "$calls" "$program"; do
    if [ ! -f "$library" ]; then
        name=$(basename "$library" .a)
        echo "build.sh: no library at $library; run rt lib in crates/${name#lib}, or name another folder" >&2
        exit 2
    fi
done
calls=$(cd "$(dirname "$calls")" && pwd)/libhost.a
program=$(cd "$(dirname "$program")" && pwd)/libprogram.a
cd "$root"
cxx=${CXX:-g++}
flags="-std=c++17 -Wall -Wextra -Werror -Ihost/include -Ihost"
out=target/host
mkdir -p $out
# The header must be C too.
echo '#include "unit486.h"' | $cxx -x c -std=c11 -Wall -Wextra -Wpedantic -Werror -Ihost/include -fsyntax-only -
for part in unit carrying board program; do
    $cxx $flags ${CXXFLAGS_BASELINE:--O2} -c host/baseline/$part.cpp -o $out/baseline_$part.o
done
baseline="$out/baseline_unit.o $out/baseline_carrying.o $out/baseline_board.o $out/baseline_program.o"
$cxx $flags -O2 host/example/example.cpp "$calls" -o $out/example
$cxx $flags -O2 host/example/table.cpp "$calls" "$program" -o $out/table_example
$cxx $flags -O2 host/differential.cpp $baseline "$calls" "$program" -o $out/differential
$cxx $flags -O2 host/benchmark.cpp $baseline "$calls" "$program" -o $out/benchmark
$cxx $flags -O2 host/rows.cpp $baseline -o $out/rows
echo "built example, table_example, differential, benchmark and rows in $out/"
