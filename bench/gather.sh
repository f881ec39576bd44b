#!/usr/bin/env bash
# Times gathering against a plain Rust gatherer, on histories of pieces in order over two members, of one member that is
# half the window behind, and of pieces that jump 128 numbers each. Both print the same line; both by turns, and the
# ratio of the best times.
# Usage: bench/gather.sh YARDSTICK.rs MAKER.py [PIECES] [ROUNDS]
set -euo pipefail
cd "$(dirname "$0")/.."

yardstick=${1:-../shared/yardsticks/gather.rs}
maker=${2:-../shared/yardsticks/make_pieces.py}
pieces=${3:-1000000}
rounds=${4:-5}
command -v rustc >/dev/null || { echo "skipped: there is no rustc"; exit 0; }
[ -f "$yardstick" ] && [ -f "$maker" ] || { echo "skipped: there is no yardstick $yardstick or no $maker"; exit 0; }

work=$(mktemp -d)
trap 'rm -rf "$work"' EXIT
rustc -O -o "$work/yardstick" "$yardstick"
(cd crates/bench_gather && rt run <stdin) >/dev/null 2>&1

for mode in order behind far; do
    python3 "$maker" 1 "$pieces" "$mode" >"$work/$mode"
done
python3 - crates/bench_gather/out/bench_gather "$work" "$pieces" "$rounds" <<'PY'
import os, resource, subprocess, sys

ours, work, pieces, rounds = sys.argv[1], sys.argv[2], int(sys.argv[3]), int(sys.argv[4])


def run(program, history):
    """What a program prints of a history, and the processor time that it takes."""
    before = resource.getrusage(resource.RUSAGE_CHILDREN)
    with open(history, "rb") as octets:
        text = subprocess.run([program], stdin=octets, capture_output=True, check=True).stdout
    after = resource.getrusage(resource.RUSAGE_CHILDREN)
    return text, after.ru_utime - before.ru_utime + after.ru_stime - before.ru_stime


for mode in "order", "behind", "far":
    history = os.path.join(work, mode)
    mine, theirs = [], []
    for _ in range(rounds):
        text, time = run(ours, history)
        mine.append(time)
        other, time = run(os.path.join(work, "yardstick"), history)
        theirs.append(time)
        if text != other:
            sys.exit(f"{mode}: {text} is not {other}")
    rate, yardstick = pieces / min(mine) / 1e6, pieces / min(theirs) / 1e6
    print(f"{mode:8}{rate:6.2f} million pieces a second, yardstick {yardstick:6.2f}, ratio {rate / yardstick:.2f}")
PY
