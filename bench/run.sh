#!/usr/bin/env bash
# Times pclmin beside a plain Rust program that does the same (oracle/plain), and prints a table for the README.
# PCLMIN names another build of pclmin. Needs rustc, Python 3, and GNU time, which is installed if it is missing.
set -euo pipefail
cd "$(dirname "$0")/.."
source bench/program.sh

if [ ! -x /usr/bin/time ]; then
    apt-get update -qq && apt-get install -y -qq time > /dev/null
fi
build_plain
python3 bench/make_jobs.py build/bench
python3 bench/measure.py "$PCLMIN" "$PLAIN" build/bench
