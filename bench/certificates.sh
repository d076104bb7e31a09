#!/usr/bin/env bash
# Times pclmin where it writes jobs again with a certificate of each format and without, and prints a table for the README.
# PCLMIN names another build of pclmin. Needs Python 3, and GNU time, which is installed if it is missing.
set -euo pipefail
cd "$(dirname "$0")/.."
source bench/program.sh

if [ ! -x /usr/bin/time ]; then
    apt-get update -qq && apt-get install -y -qq time > /dev/null
fi
python3 bench/make_jobs.py build/bench
python3 bench/certificates.py "$PCLMIN" build/bench
