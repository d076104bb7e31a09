#!/usr/bin/env bash
# A run of the other programs (README.md): tables by reference.py and least.py, random jobs and triples by all, and 20,000 random jobs
# through `shrink` and back. It takes a quarter of an hour on four cores.
# PCLMIN names another build of pclmin. Needs rustc and Python 3.
set -euo pipefail
cd "$(dirname "$0")/.."
PCLMIN=${PCLMIN:-build/pclmin}
[ -x "$PCLMIN" ] || { echo "there is no $PCLMIN: run make build first" >&2; exit 1; }

mkdir -p build/oracle
rustc -O -C codegen-units=1 --edition 2024 -o build/oracle/plain oracle/plain/main.rs
for table in crates/job_cases/data/*.txt; do
    case $(basename "$table") in
        certificates.txt) ;;
        drivers.txt) python3 oracle/reference.py --drivers "$table" ;;
        *) python3 oracle/reference.py "$table" ;;
    esac
done
python3 oracle/reference.py --pairs crates/shrink_cases/data/pairs.txt
python3 oracle/fuzz.py "$PCLMIN" build/oracle/plain 1800 1 --workers 2 --folder build/oracle
python3 oracle/fuzz.py "$PCLMIN" build/oracle/plain 200 2 --model --workers 2 --folder build/oracle
python3 oracle/fuzz.py "$PCLMIN" build/oracle/plain 200 3 --triples --workers 2 --folder build/oracle
python3 oracle/fuzz.py "$PCLMIN" build/oracle/plain 600 24 --drivers --model --workers 2 --folder build/oracle
for seed in {4..23}; do
    python3 oracle/shrunk.py "$PCLMIN" build/oracle/plain 1000 "$seed" --workers "$(nproc)" --folder build/oracle
done
