#!/bin/sh
# Instructions of writing a byte store full and of reading it record by record, counted by callgrind:
# run by hand; it builds the program first.
set -eu
cd "$(dirname "$0")/.."
(cd crates/read_all && rt run -- 8 read >/dev/null 2>&1)

instructions() {
    valgrind --tool=callgrind --callgrind-out-file=/dev/null crates/read_all/out/read_all "$1" "$2" 2>&1 >/dev/null |
        sed -n 's/.*Collected : *//p'
}

start=$(instructions 0 fill)
for records in 512 4096; do
    fill=$(instructions "$records" fill)
    all=$(instructions "$records" read)
    echo "$records records: $((fill - start)) instructions to write all, $(((fill - start) / records)) for each;" \
        "$((all - fill)) to read all, $(((all - fill) / records)) for each"
done
