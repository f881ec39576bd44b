#!/usr/bin/env bash
# Times ppp_replay -c against a plain Rust program on one lawful report: both by turns, five times, and the ratio of the
# best times. Usage: bench/report.sh YARDSTICK.rs MAKER.py [OCTETS] [SEED]
set -euo pipefail
cd "$(dirname "$0")/.."

yardstick=${1:-../shared/yardsticks/report_check.rs}
maker=${2:-../shared/yardsticks/make_report.py}
octets=${3:-67108864}
seed=${4:-1}
command -v rustc >/dev/null || { echo "skipped: there is no rustc"; exit 0; }
[ -f "$yardstick" ] && [ -f "$maker" ] || { echo "skipped: there is no yardstick $yardstick or no $maker"; exit 0; }

work=$(mktemp -d)
trap 'rm -rf "$work"' EXIT
rustc -O -o "$work/yardstick" "$yardstick"
(cd crates/ppp_replay && rt run <stdin) >/dev/null 2>&1
python3 "$maker" "$seed" "$octets" >"$work/report"

python3 - crates/ppp_replay/out/ppp_replay "$work/yardstick" "$work/report" <<'PY'
import resource, subprocess, sys, time
replay, yardstick, report = sys.argv[1:]


def seconds(*program):
    with open(report) as given:
        start = time.perf_counter()
        subprocess.run(program, stdin=given, stdout=subprocess.DEVNULL, check=True)
        return time.perf_counter() - start


seconds(replay, "-c")
most = resource.getrusage(resource.RUSAGE_CHILDREN).ru_maxrss
rounds = [(seconds(replay, "-c"), seconds(yardstick)) for _ in range(5)]
ours, theirs = (min(column) for column in zip(*rounds))
print(f"ppp_replay -c {ours * 1000:.1f} ms, yardstick {theirs * 1000:.1f} ms, ratio {ours / theirs:.2f}, at most {most} KiB")
PY
