#!/usr/bin/env bash
# Rows a second of each coder of pcl_coders beside plain Rust programs (coders.rs), one with the same linear tables and
# one that tries each length and each offset at each place, as a table for bench/README.md. CODER_BENCH names another
# build of bench/coder_bench. Needs rustc.
set -euo pipefail
cd "$(dirname "$0")/.."
bench=${CODER_BENCH:-build/bench/coder_bench}
mkdir -p build/bench

# Builds coder_bench as one more crate of a copy, over the crates that are built here. The copy is a temporary folder,
# since `rt ci` takes no second crates.txt inside the repository.
build() (
    tools/build.py pcl_coders
    room=$(mktemp -d)
    trap 'rm -rf "$room"' EXIT
    tar -c --exclude=out crates.txt crates tools | tar -x -C "$room"
    echo "coder_bench: pcl_coders" >> "$room/crates.txt"
    mkdir -p "$room/crates/coder_bench/src"
    cp bench/coder_bench/main.rattle "$room/crates/coder_bench/src/main.rt"
    PCLMIN_CACHE=$(tools/build.py --where) "$room/tools/build.py" coder_bench
    cp "$room/build/coder_bench" "$bench"
)

[ -n "${CODER_BENCH:-}" ] || build >&2
rustc -O --edition 2024 -o build/bench/coders bench/coders.rs
rows=500

# the least nanoseconds of five runs
nanoseconds() {
    local best="" begin end
    for _ in 1 2 3 4 5; do
        begin=$(date +%s%N)
        "$@" > build/bench/coders.out
        end=$(date +%s%N)
        if [ -z "$best" ] || [ $((end - begin)) -lt "$best" ]; then best=$((end - begin)); fi
    done
    echo "$best"
}

# nanoseconds a row: ASK METHOD KIND TIMES COMMAND.., less those of a run that goes through no row
row_time() {
    local ask=$1 method=$2 kind=$3 times=$4 none all
    shift 4
    none=$(nanoseconds "$@" "$ask" "$method" "$kind" 0)
    all=$(nanoseconds "$@" "$ask" "$method" "$kind" "$times")
    awk -v a="$all" -v n="$none" -v c="$((times * rows))" 'BEGIN { t = (a - n) / c; printf "%.2f", t < 0.01 ? 0.01 : t }'
}

same_total() {
    if [ "$1" != "$2" ]; then
        echo "$1 bytes by pcl_coders, and $2 by the plain program: $3" >&2
        exit 1
    fi
}

echo "| Asked | Method | Rows | Bytes | pcl_coders, rows/s | linear, rows/s | Ratio of times | tried, rows/s |"
echo "|---|---|---|---:|---:|---:|---:|---:|"
for ask in length data; do
    for method in 0 1 2 3; do
        for kind in blank text dithered noisy random; do
            times=40
            [ "$kind" = blank ] && times=2000
            [ "$ask$method" = length0 ] && times=20000
            few=2
            if [ "$kind" = blank ] || [ "$method" -lt 2 ]; then few=40; fi
            ours=$(row_time "$ask" "$method" "$kind" "$times" "$bench")
            total=$(cat build/bench/coders.out)
            linear=$(row_time "$ask" "$method" "$kind" "$times" build/bench/coders linear)
            same_total "$total" "$(cat build/bench/coders.out)" "$ask, method $method, $kind"
            tried=$(row_time "$ask" "$method" "$kind" "$few" build/bench/coders tried)
            same_total "$((total / times * few))" "$(cat build/bench/coders.out)" "$ask, method $method, $kind, tried"
            awk -v a="$ask" -v m="$method" -v k="$kind" -v b="$((total / times))" -v o="$ours" -v l="$linear" -v t="$tried" \
                'BEGIN { printf "| %s | %d | %s | %d | %d | %d | %.2f | %d |\n", a, m, k, b, 1e9 / o, 1e9 / l, o / l, 1e9 / t }'
        done
    done
done
