#!/bin/sh
# Puts each slip of this folder into a scratch copy of `second`, builds it, and
# lets `cases compare` look for it, of `frame` alone if its name begins with
# `frame`, or `cases states` if its name begins with `states`. Prints a line for each slip: its name, how many of the cases or blocks
# caught it, the first such case or block.
#   slips/run.sh [SEED [COUNT [SLIP...]]]
# Wants both packages built with `cargo build --release`. The variable THREADS
# says how many cases are run at a time, 2 if it is not set.
set -eu
cd "$(dirname "$0")/.."
seed=${1:-1}
count=${2:-2000}
if [ $# -gt 2 ]; then shift 2; else set -- slips/*.patch; fi

scratch=target/slips
root=$PWD
mkdir -p "$scratch"
for patch in "$@"; do
    name=$(basename "$patch" .patch)
    copy=$scratch/copy
    rm -rf "$copy"
    mkdir -p "$copy"
    cp -r Cargo.toml Cargo.lock src "$copy"
    patch -s -p1 -d "$copy" < "slips/$name.patch"
    (cd "$copy" && CARGO_TARGET_DIR="$root/$scratch/build" \
        cargo build --release --offline -j1 > "$root/$scratch/$name.build" 2>&1) ||
        { printf '%s\tdoes not build\n' "$name"; continue; }
    case $name in
        states-*) look=states threads= ;;
        frame-*) look=compare threads="--threads ${THREADS:-2} --only frame" ;;
        *) look=compare threads="--threads ${THREADS:-2}" ;;
    esac
    # The folder of programs takes the slipped binary from the variable SECOND.
    SECOND=$root/$scratch/build/release/second \
        cases/target/release/cases $look self target/release/second \
        --seed "$seed" --count "$count" $threads \
        > "$scratch/$name.log" || true
    caught=$(tail -n 1 "$scratch/$name.log" | sed 's/.*, \([0-9]*\) failed/\1/')
    first=$(grep ' differs$' "$scratch/$name.log" | sort -n -k 4 | head -n 1)
    printf '%s\t%s\t%s\n' "$name" "$caught" "$first"
done
