#!/usr/bin/env bash
# Times ppp_replay against a plain Rust program on one trace of 100,000 steps: both by turns, five times, and the ratio of the
# best times. Usage: bench/bare.sh YARDSTICK.rs [SEED]
set -euo pipefail
cd "$(dirname "$0")/.."

yardstick=${1:-../shared/yardsticks/bare_replay.rs}
seed=${2:-1}
command -v rustc >/dev/null || { echo "skipped: there is no rustc"; exit 0; }
[ -f "$yardstick" ] || { echo "skipped: there is no yardstick $yardstick"; exit 0; }

work=$(mktemp -d)
trap 'rm -rf "$work"' EXIT
rustc -O -o "$work/yardstick" "$yardstick"
(cd crates/ppp_replay && rt run <stdin) >/dev/null 2>&1
replay=crates/ppp_replay/out/ppp_replay

python3 - "$seed" >"$work/trace" <<'PY'
import random, sys
random.seed(int(sys.argv[1]))
# Lives of a link, each with two ends of scripts and two events that change nothing: a quarter of the steps are ends.
steps, job = ["open"], 1
while len(steps) < 100000:
    life = ["up", "rcr+", "rca", f"end {job} exit 0", "down", f"end {job + 1} exit 0"]
    for event in random.choices(["ruc", "rxr", "open"], k=2):
        life.insert(random.randrange(1, 3), event)
    steps += life
    job += 2
print("\n".join(["bare"] + steps[:100000]))
PY

python3 - "$replay" "$work/yardstick" "$work/trace" <<'PY'
import resource, subprocess, sys, time
replay, yardstick, trace = sys.argv[1:]


def seconds(program):
    with open(trace) as given:
        start = time.perf_counter()
        subprocess.run([program], stdin=given, stdout=subprocess.DEVNULL, check=True)
        return time.perf_counter() - start


seconds(replay)
most = resource.getrusage(resource.RUSAGE_CHILDREN).ru_maxrss
rounds = [(seconds(replay), seconds(yardstick)) for _ in range(5)]
ours, theirs = (min(column) for column in zip(*rounds))
print(f"ppp_replay {ours * 1000:.1f} ms, yardstick {theirs * 1000:.1f} ms, ratio {ours / theirs:.2f}, at most {most} KiB")
PY
