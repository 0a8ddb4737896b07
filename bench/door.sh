#!/usr/bin/env bash
# Measures page counters through the library of crates/vozhkell_c beside the same calls in C (bench/door.c), on CPUs
# that neighbour and on CPUs far apart, and then `run` on 128 CPUs with 16 zones in phases of 200 lines (bench/run.sh
# wide). It prints a table of the first and the times of the second, and takes some minutes.
#
#     bench/door.sh [CALLS [RUNS]]
#
# CALLS are those of each thread in a run (2,000,000), of which a fold and a snapshot make fewer, and RUNS how often
# each way is run (7). The library is built by `rt lib` in crates/vozhkell_c; VOZHKELL_C may name another one. Needed
# are Linux, bash, python3, rustc, a C compiler with pthreads, the Rattle kit for the heap that the library takes, and the
# proved program, as bench/run.sh says. Times vary with what else the machine does, so the load average is printed too.
set -u
top=$(CDPATH= cd -- "$(dirname "${BASH_SOURCE[0]}")/.." && pwd) || exit 2
calls=${1:-2000000}
runs=${2:-7}
work=$(mktemp -d) || exit 2
trap 'rm -rf "$work"' EXIT

# The heap of the Rattle kit, which a program in C links beside the library.
kit_heap() {
    local folder
    folder=$(dirname "$(rt doc)")
    while [ "$folder" != / ] && [ ! -e "$folder/c/liblibc_c.a" ]; do folder=$(dirname "$folder"); done
    echo "$folder/c/liblibc_c.a"
}

library=${VOZHKELL_C:-}
if [ -z "$library" ]; then
    library=$top/crates/vozhkell_c/out/libvozhkell_c.a
    (CDPATH= cd -- "$top/crates/vozhkell_c" && rt lib >"$work/said" 2>&1) || { cat "$work/said" >&2; exit 2; }
fi
flags=(-std=c11 -O3 -march=x86-64-v2 -falign-loops=32 -Wall -Wextra -Werror -pthread -I "$top/crates/vozhkell_c")
"${CC:-cc}" "${flags[@]}" "$top/bench/door.c" "$library" "$(kit_heap)" -o "$work/door" || exit 2
echo "load average $(cut -d ' ' -f 1 /proc/loadavg), $(nproc) processors; $calls calls a thread, medians of $runs runs"
"$work/door" "$calls" "$runs" || exit
"$top/bench/run.sh" wide 5
