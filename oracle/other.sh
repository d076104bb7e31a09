#!/usr/bin/env bash
# oracle/other.sh PROGRAM RENDER JOB..: whether another interpreter of PCL 5 paints what `shrink` writes of each job as `pbm`
# paints the job, dot for dot. RENDER is a command that takes a job and a name, and writes the pages at 300 dots per inch, or
# at DPI, cut to the logical page, as NAME-1.pbm, NAME-2.pbm and so on (P4).
set -u
dpi=${DPI:-300}
program=$(realpath "$1")
render=$2
shift 2
folder=$(mktemp -d)
trap 'rm -rf "$folder"' EXIT
differ=0
pages=0

for job in "$@"; do
    "$program" shrink --dpi "$dpi" -o "$folder/smaller.pcl" "$job" || continue
    rm -f "$folder"/page-*.pbm
    $render "$folder/smaller.pcl" "$folder/page" || exit 2
    count=$("$program" pages --dpi "$dpi" "$job" | tail -n 1 | cut -f 1)
    for ((page = 1; page <= count; page++)); do
        pages=$((pages + 1))
        if ! "$program" pbm --dpi "$dpi" --page "$page" "$job" | cmp -s - "$folder/page-$page.pbm"; then
            echo "$job: page $page differs"
            differ=$((differ + 1))
        fi
    done
done
echo "$((pages - differ)) of $pages pages agree"
test "$differ" -eq 0
