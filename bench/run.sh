#!/bin/sh
# Times the engine over its static library, and PostGIS and SpatiaLite where they are installed.
#   bench/run.sh           prints the tables; the times go to target/bench/figures.csv
#   bench/run.sh --plot    also puts them into bench/figures.csv and draws bench/plot.svg anew
set -eu
cd "$(dirname "$0")/.."
case "${1-}" in
    '' | --plot) ;;
    *) sed -n '2,4s/^# //p' bench/run.sh >&2; exit 2 ;;
esac
(cd crates/solgwid && rt lib)
mkdir -p target/bench
rustc -O --edition 2021 bench/bench.rs -L crates/solgwid/out -l static=solgwid -o target/bench/bench
csv=target/bench/figures.csv
echo "# Solgwid at commit $(git describe --always --dirty --exclude '*')" > "$csv"
target/bench/bench "$csv"
python3 bench/others.py 100 500 1000 2000 --csv "$csv"
if [ "${1-}" = --plot ]; then
    cp "$csv" bench/figures.csv
    python3 bench/plot.py bench/figures.csv -o bench/plot.svg
fi
