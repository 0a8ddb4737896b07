#!/usr/bin/env bash
# Counts the instructions of the proved program and of the same job in plain Rust, per line of a trace: for `check` lines
# of every kind (bench/mixed.py, bench/check.rs), for `replay` changes of counters (bench/changes.py, bench/replay.rs).
#
#     bench/instructions.sh [LINES]
#
# LINES is how many lines each trace has, 200000 where it isn't given. The plain programs are built for the processor that
# the proved program is built for. The figures are the same at every run, whatever else the machine does.
#
# Needed are Linux, bash, python3, rustc, valgrind, and the proved program, which
# `./vozhkell replay < examples/first.vmtrace` builds. Another program may be named in VOZHKELL.
set -u
top=$(CDPATH= cd -- "$(dirname "${BASH_SOURCE[0]}")/.." && pwd) || exit 2
lines=${1:-200000}
proved=${VOZHKELL:-$top/crates/vozhkell/out/vozhkell}

if ! [[ $lines =~ ^[1-9][0-9]*$ ]]; then
    echo "usage: bench/instructions.sh [LINES]" >&2
    exit 2
fi
for needed in rustc valgrind python3; do
    command -v $needed >/dev/null || { echo "bench/instructions.sh: there is no $needed" >&2; exit 2; }
done
if ! [ -x "$proved" ]; then
    echo "bench/instructions.sh: there is no $proved: build it by ./vozhkell replay < examples/first.vmtrace" >&2
    exit 2
fi
work=$(mktemp -d) || exit 2
trap 'rm -rf "$work"' EXIT

# instructions PROGRAM COMMAND: what one run of it on the trace takes.
instructions() {
    valgrind --tool=callgrind --callgrind-out-file=/dev/null "$1" "$2" <"$work/trace" 2>&1 >/dev/null |
        sed -n 's/.*Collected : //p'
}

printf '%-8s %8s %8s %6s\n' command proved plain ratio
for command in check replay; do
    case $command in
        check) generator=mixed ;;
        replay) generator=changes ;;
    esac
    rustc -O -A dead_code -C target-cpu=x86-64-v2 --edition 2021 --cfg alone --cfg "alone=\"$command\"" \
        -o "$work/plain" "$top/bench/vozhkell.rs" || exit 2
    python3 -B "$top/bench/$generator.py" >"$work/whole" || exit 2
    head -n "$lines" "$work/whole" >"$work/trace"
    if ! cmp <("$proved" $command <"$work/trace") <("$work/plain" $command <"$work/trace"); then
        echo "bench/instructions.sh: the outputs of $command differ" >&2
        exit 1
    fi
    ours=$(instructions "$proved" $command)
    theirs=$(instructions "$work/plain" $command)
    awk -v c=$command -v a="$ours" -v b="$theirs" -v n="$(wc -l <"$work/trace")" \
        'BEGIN { printf "%-8s %8.0f %8.0f %6.2f\n", c, a / n, b / n, a / b }'
done
