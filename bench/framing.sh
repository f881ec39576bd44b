#!/usr/bin/env bash
# Times framing and deframing against a plain C program, on packets of 300 to 1,500 random octets under the maps 0 and
# ffffffff: both by turns, and the ratio of the best times. Then packets of 64 octets and of zeros, without a yardstick.
# Usage: bench/framing.sh YARDSTICK.c [MEGABYTES] [ROUNDS]
set -euo pipefail
cd "$(dirname "$0")/.."

yardstick=${1:-../shared/yardsticks/hdlc.c}
megabytes=${2:-16}
rounds=${3:-5}
command -v gcc >/dev/null || { echo "skipped: there is no gcc"; exit 0; }
[ -f "$yardstick" ] || { echo "skipped: there is no yardstick $yardstick"; exit 0; }

work=$(mktemp -d)
trap 'rm -rf "$work"' EXIT
gcc -O2 -o "$work/yardstick" "$yardstick"
(cd crates/bench_framing && rt run) >/dev/null 2>&1

python3 - crates/bench_framing/out/bench_framing "$work/yardstick" "$megabytes" "$rounds" <<'PY'
import re, subprocess, sys

ours, theirs, megabytes, rounds = sys.argv[1], sys.argv[2], sys.argv[3], int(sys.argv[4])


def rates(*words):
    """Megabytes of payload a second, by direction and map."""
    text = subprocess.run(words, capture_output=True, text=True, check=True).stdout
    found = re.findall(r"^(frame|deframe) +map ([0-9a-f]{8}) +([0-9.]+) (kB|MB)/s", text, re.M)
    return {(way, receiving): float(rate) / (1000 if unit == "kB" else 1) for way, receiving, rate, unit in found}


def best(all_rates):
    return {key: max(rates[key] for rates in all_rates) for key in all_rates[0]}


turns = [(rates(ours, megabytes, "1", "3"), rates(theirs, megabytes, "1", "3")) for _ in range(rounds)]
mine, yardstick = (best(column) for column in zip(*turns))
for way, receiving in mine:
    key = way, receiving
    print(f"{way:8}{receiving} {mine[key]:7.1f} MB/s, yardstick {yardstick[key]:7.1f} MB/s, ratio {mine[key] / yardstick[key]:.2f}")
for kind in "small", "zeros":
    for (way, receiving), rate in rates(ours, megabytes, "1", "5", kind).items():
        print(f"{way:8}{receiving} {rate:7.1f} MB/s, packets {'of 64 octets' if kind == 'small' else 'of zeros'}")
PY
