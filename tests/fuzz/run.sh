#!/usr/bin/env bash
# run.sh SECONDS   builds the fuzz target, sees that it stops at each planted fault, and runs it for so long.
# What it found before stays in build/corpus and is where it goes on. An input that breaks something is kept as build/fuzz-crash-..; given to
# build/fuzz as its only argument, it does so again. TELL=1 says of each planted fault how it was found. ARCHIVE is another archive than make's.
set -euo pipefail
cd "$(dirname "$0")/../.."
archive=${ARCHIVE:-target/staticlib/libballuchaw.a}
strict=(-std=gnu11 -g -O2 -Wall -Wextra -Werror -Iinclude)
watched=(-fsanitize=address,undefined -fno-sanitize-recover=undefined)
wraps=()
for call in make check enter amend cancel lookup descent span seek; do wraps+=("-Wl,--wrap=balluchaw_$call"); done

rm -rf build/corpus-first
mkdir -p build/corpus build/corpus-first
clang "${strict[@]}" "${watched[@]}" -fsanitize=fuzzer tests/fuzz/fuzz.c "$archive" -o build/fuzz
clang "${strict[@]}" "${watched[@]}" -fsanitize=fuzzer tests/fuzz/fuzz.c -c -o build/fuzz.o
clang "${strict[@]}" tests/fuzz/planted.c -c -o build/planted.o
clang "${watched[@]}" -fsanitize=fuzzer "${wraps[@]}" build/fuzz.o build/planted.o "$archive" -o build/fuzz-planted
clang "${strict[@]}" tests/fuzz/corpus.c "$archive" -o build/corpus.bin
build/corpus.bin build/corpus-first >build/fuzz.log

# As long as the longest of the first inputs, so that none is cut off.
longest=$(stat -c %s build/corpus-first/* | sort -n | tail -n 1)
settings=(-seed=1 -max_len="$longest" -artifact_prefix=build/fuzz- -timeout=20)
FAULT=0 build/fuzz-planted "${settings[@]}" -runs=200 build/corpus-first >>build/fuzz.log 2>&1 || { tail -20 build/fuzz.log; exit 1; }
planted=81
for fault in $(seq $planted); do
    if FAULT=$fault build/fuzz-planted "${settings[@]}" -artifact_prefix=build/planted- -max_total_time=20 build/corpus-first \
        >build/planted.log 2>&1; then
        echo "fuzz: planted fault $fault not found"
        exit 1
    fi
    [ -z "${TELL:-}" ] || { echo "fault $fault:"; grep -m1 -E 'fuzz: broken|AddressSanitizer: ' build/planted.log; }
done
rm -f build/planted-*

build/fuzz "${settings[@]}" -max_total_time="$1" -print_final_stats=1 build/corpus build/corpus-first >build/fuzz.log 2>&1 ||
    { grep -vE '^#[0-9]' build/fuzz.log | tail -40; exit 1; }
runs=$(sed -n 's/^stat::number_of_executed_units: *//p' build/fuzz.log)
calls=$(sed -n 's/^fuzz: \([0-9]*\) calls$/\1/p' build/fuzz.log)
orders=$(sed -n 's/^fuzz: version [12]: orders //p' build/fuzz.log | tr ' ' '\n' | sort -n)
[ "$(wc -w <<<"$orders")" -eq 6 ] && [ "$(head -n 1 <<<"$orders")" -gt 0 ] || { echo "fuzz: no table shows which label is smaller, or none was put in the other order"; exit 1; }
shapes=$(sed -n 's/^#[0-9]*.DONE .* ft: \([0-9]*\) .*/\1/p' build/fuzz.log)
echo "fuzz: $planted planted faults found; then $runs inputs, $calls calls of the archive, $shapes features in $1 s, and nothing broken;" \
    "tables that show which label is smaller, and such with chunks where the other order has them, came $(head -n 1 <<<"$orders") times or more in each version"
