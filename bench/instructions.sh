#!/bin/bash
# instructions.sh JOB IMAGE ..: instructions of one run of a job by each side as
# callgrind counts them, a row of the table of docs/SPEED.md for each image;
# "alone" is without the check and the load. run.sh builds the program. A run is
# the difference of five runs and one. memset and memcpy are kept off `rep
# stosb`, which callgrind counts once for each byte.
set -euo pipefail

ROOT=$(dirname "$(dirname "$(realpath "$0")")")
BENCH=$ROOT/target/bench/release/bench
THRESHOLDS=glibc.cpu.x86_rep_stosb_threshold=0x7fffffff:glibc.cpu.x86_rep_movsb_threshold=0x7fffffff

# The instructions of so many runs.
count() {
    GLIBC_TUNABLES=$THRESHOLDS valgrind --tool=callgrind --callgrind-out-file=/dev/null \
        "$BENCH" --only "$1" "$2" "$3" "$4" 2>&1 | awk '/Collected/ { print $NF }'
}

# The instructions of one run by a side.
run() {
    echo "$((($(count 5 "$1" "$2" "$3") - $(count 1 "$1" "$2" "$3")) / 4))"
}

JOB=$1
shift
for image in "$@"; do
    echo "$(basename "$image" .img) $JOB $(run "$JOB" ours "$image") $(run "$JOB" check "$image") $(run "$JOB" rust "$image") $(run "$JOB" load "$image")"
done | awk '
    function grouped(number) {
        number = sprintf("%d", number)
        while (match(number, /[0-9][0-9][0-9][0-9]($|,)/))
            number = substr(number, 1, RSTART) "," substr(number, RSTART + 1)
        return number
    }
    {
        ours = $3 - $4
        rust = $5 + $6
        printf "| %s | %s | %s | %s | %.2f | %s | %s | %s |\n", $1, $2, grouped($3), grouped(rust), rust / $3,
            grouped(ours), grouped($5), (ours > 0 ? sprintf("%.2f", $5 / ours) : "-")
    }'
