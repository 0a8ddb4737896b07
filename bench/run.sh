#!/usr/bin/env bash
# Measures the proved program beside the same job in plain Rust, bench/replay.rs, bench/check.rs, bench/run.rs,
# bench/groups.rs, bench/record.rs or bench/certify.rs alone in bench/vozhkell.rs, on a trace of 1,000,000 lines: for
# `replay` changes of counters (bench/changes.py), for `check` lines of every form (bench/mixed.py), for `run` lines of
# every kind on 8 CPUs (bench/phases.py), for `groups` changes and flushes of 64 groups on 8 CPUs (bench/groups.py), the
# last two in phases of 200, then of 10,000, and then of 1,000,000 lines. For `wide` it is `run` of 100,000 lines on 128
# CPUs with 16 zones, in phases of 200 lines. For `record` it is a trace of 128,000 lines of bench/phases.py, in phases
# of 200, and for `certify` what the plain program records of it, with about 850,000 events.
#
#     bench/run.sh replay|check|run|wide|groups|record|certify [N [loaded]]
#
# Both read the trace from a file and write to /dev/null, N times each (21 where no N is given), one after the other in
# turn. Printed are the median wall time of each, from start to end of its process, the ratio of the medians, and the
# most memory that each held (VmHWM of /proc, read through one more run that isn't timed). The status is 1 if the two
# write different outputs or end with different statuses, and 2 if there is nothing to measure.
#
# With `loaded` four loops that do nothing run meanwhile, as a build would; the form of the plain program that starts
# threads, which takes half a minute for a run then, isn't timed.
#
# For `run` and `groups` the plain program comes in two forms: `plain` starts a thread for each lane and phase,
# `standing` has a thread for each lane, which waits for its lines of each phase. What is printed may differ from run to
# run. Compared are the statuses, and what bench/agree.py compares.
#
# Needed are Linux, bash, python3, rustc, and the proved program, which `./vozhkell replay < examples/first.vmtrace`
# builds. Another program may be named in VOZHKELL. Times vary with what else the machine does: with the plain program
# in both places, five runs of 21 on a shared machine gave ratios of the medians of 0.90, 0.96, 0.99, 1.01 and 1.44. So
# the ratio of the least times is printed too, which differed from 1 by at most 4 in 100 there, and a ratio of medians
# says little before such a run, by VOZHKELL, has shown how far it varies.
set -u
top=$(CDPATH= cd -- "$(dirname "${BASH_SOURCE[0]}")/.." && pwd) || exit 2
asked=${1:-}
command=$asked
[ "$asked" = wide ] && command=run
rounds=${2:-21}
load=${3:-}
proved=${VOZHKELL:-$top/crates/vozhkell/out/vozhkell}

words="^(replay|check|run|wide|groups|record|certify)$"
if ! [[ $asked =~ $words && $rounds =~ ^[1-9][0-9]*$ && $load =~ ^(loaded)?$ ]]; then
    echo "usage: bench/run.sh replay|check|run|wide|groups|record|certify [N [loaded]]" >&2
    exit 2
fi
if ! [ -x "$proved" ]; then
    echo "bench/run.sh: there is no $proved: build it by ./vozhkell replay < examples/first.vmtrace" >&2
    exit 2
fi
unset STANDING_THREADS
work=$(mktemp -d) || exit 2
loops=()
trap 'for loop in "${loops[@]}"; do kill "$loop"; done; rm -rf "$work"' EXIT
flags=(-O -A dead_code --edition 2021)
# The proved program is built for this processor.
[[ $command =~ ^(run|groups)$ ]] && flags+=(-C target-cpu=x86-64-v2)

# build COMMAND PROGRAM: builds the plain program of this command alone.
build() { rustc "${flags[@]}" --cfg alone --cfg "alone=\"$1\"" -o "$2" "$top/bench/vozhkell.rs"; }

build "$command" "$work/plain" || exit 2

# compared: both programs write the same of the trace and end with the same status.
compared() {
    local proved_status plain_status
    "$proved" "$command" <"$work/trace" >"$work/proved.out"
    proved_status=$?
    "$work/plain" "$command" <"$work/trace" >"$work/plain.out"
    plain_status=$?
    if ! cmp "$work/proved.out" "$work/plain.out" || [ $proved_status != $plain_status ]; then
        echo "the outputs or statuses differ: proved $proved_status, plain $plain_status" >&2
        return 1
    fi
    echo "both write: $(tail -n 1 "$work/proved.out"), status $proved_status"
}

# runs_compared LINES: the same of runs, but for what differs from run to run.
runs_compared() {
    local proved_status plain_status standing_status
    "$proved" "$command" <"$work/trace" >"$work/proved.out"
    proved_status=$?
    "$work/plain" "$command" <"$work/trace" >"$work/plain.out"
    plain_status=$?
    STANDING_THREADS=1 "$work/plain" "$command" <"$work/trace" >"$work/standing.out"
    standing_status=$?
    if ! python3 -B "$top/bench/agree.py" "$work"/{trace,proved.out,plain.out,standing.out} ||
        [ $proved_status != $plain_status ] || [ $proved_status != $standing_status ]; then
        echo "phases of $1 lines: the outputs or statuses differ:" \
            "proved $proved_status, plain $plain_status, standing $standing_status" >&2
        return 1
    fi
    echo "phases of $1 lines: all write: $(tail -n 1 "$work/proved.out"), status $proved_status"
}

cat >"$work/measure.py" <<'PYTHON'
import os
import statistics
import subprocess
import sys
import time

rounds, trace, command = int(sys.argv[1]), sys.argv[2], sys.argv[3]
programs = {"proved": (sys.argv[4], {}), "plain": (sys.argv[5], {})}
if command in ("run", "groups"):
    if sys.argv[6] == "loaded":
        del programs["plain"]
    programs["standing"] = (sys.argv[5], {"STANDING_THREADS": "1"})


def start(program):
    path, environment = program
    with open(trace, "rb") as text:
        return subprocess.Popen([path, command], stdin=text, stdout=subprocess.DEVNULL, env=os.environ | environment)


def seconds(program):
    begin = time.perf_counter()
    start(program).wait()
    return time.perf_counter() - begin


def most_memory(program):
    """The last high-water mark, in KiB, that a run shows before it ends."""
    most, process = 0, start(program)
    while process.poll() is None:
        with open(f"/proc/{process.pid}/status") as status:
            marks = [line.split()[1] for line in status if line.startswith("VmHWM")]
        most = max([most, *map(int, marks)])
    return most


times = {name: [] for name in programs}
for _ in range(rounds):
    for name, program in programs.items():
        times[name].append(seconds(program))
medians = {name: statistics.median(taken) for name, taken in times.items()}
least = {name: min(taken) for name, taken in times.items()}
memory = {name: most_memory(program) for name, program in programs.items()}
for name in programs:
    print(f"{name}: median {1000 * medians[name]:.1f} ms of {rounds} runs, "
          f"least {1000 * least[name]:.1f} ms, peak memory {memory[name] / 1024:.1f} MiB")
for name in list(programs)[1:]:
    ratios = f"{medians['proved'] / medians[name]:.2f} by medians, {least['proved'] / least[name]:.2f} by least times"
    if command in ("run", "groups"):
        ratios += f", {memory['proved'] / memory[name]:.2f} by peak memory"
    print(f"proved / {name}: {ratios}")
PYTHON

measured() { python3 "$work/measure.py" "$rounds" "$work/trace" "$command" "$proved" "$work/plain" "$load"; }

if [ "$load" = loaded ]; then
    for _ in 1 2 3 4; do
        while :; do :; done &
        loops+=($!)
    done
fi

case $asked in
    replay | check)
        declare -A generators=([replay]=changes [check]=mixed)
        python3 -B "$top/bench/${generators[$command]}.py" >"$work/trace" || exit 2
        compared || exit 1
        measured
        ;;
    record | certify)
        python3 -B "$top/bench/phases.py" 1 128000 8 200 >"$work/trace" || exit 2
        if [ $command = certify ]; then
            build record "$work/record" || exit 2
            "$work/record" record <"$work/trace" >"$work/history"
            mv "$work/history" "$work/trace"
        fi
        compared || exit 1
        measured
        ;;
    run | groups)
        for lines in 200 10000 1000000; do
            case $command in
                run) python3 -B "$top/bench/phases.py" 1 1000000 8 $lines >"$work/trace" || exit 2 ;;
                groups) python3 -B "$top/bench/groups.py" 1 1000000 8 64 $lines >"$work/trace" || exit 2 ;;
            esac
            runs_compared $lines || exit 1
            measured || exit 2
        done
        ;;
    wide)
        python3 -B "$top/bench/phases.py" 1 100000 128 200 16 >"$work/trace" || exit 2
        runs_compared 200 || exit 1
        measured || exit 2
        ;;
esac
