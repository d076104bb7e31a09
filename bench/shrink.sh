#!/usr/bin/env bash
# bench/shrink.sh PROGRAM: bytes of text pages as ghostscript's ljet2p sends them, as the least raster and as `shrink` writes
# them. Needs groff, ghostscript and xz. The text is that of docs/LANGUAGE.md, set in Times at 11 points.
set -euo pipefail
cd "$(dirname "$0")/.."
program=$(realpath "${1:-build/pclmin}")
folder=$(mktemp -d)
trap 'rm -rf "$folder"' EXIT

{ printf '.ps 11\n.vs 13\n'; tr -cd 'A-Za-z0-9 .,;:\n-' < docs/LANGUAGE.md | { head -c 14000; cat > /dev/null; }; echo; } > "$folder/once"
echo "pages sent xz least shrink time"
for times in 1 4; do
    for ((i = 0; i < times; i++)); do cat "$folder/once"; done > "$folder/text"
    groff -Tps "$folder/text" > "$folder/text.ps" 2> /dev/null
    for last in 1 1000; do
        if [ "$times$last" = 41 ]; then continue; fi
        gs -q -dNOPAUSE -dBATCH -sDEVICE=ljet2p -r300 -sPAPERSIZE=letter -dLastPage=$last -sOutputFile="$folder/job.pcl" "$folder/text.ps"
        "$program" min -o "$folder/least.pcl" "$folder/job.pcl"
        begin=$(date +%s%N)
        "$program" shrink -o "$folder/smaller.pcl" "$folder/job.pcl"
        end=$(date +%s%N)
        "$program" same "$folder/job.pcl" "$folder/smaller.pcl" | grep -qx same
        echo "$("$program" pages "$folder/job.pcl" | tail -n 1 | cut -f 1)" "$(wc -c < "$folder/job.pcl")" "$(xz -9e -c "$folder/job.pcl" | wc -c)" \
            "$(wc -c < "$folder/least.pcl")" "$(wc -c < "$folder/smaller.pcl")" "$(((end - begin) / 1000000)) ms"
    done
done
