#!/usr/bin/env bash
# Times the built program on files of the first form with 125, 250 and 500 assertions over names of 100 bytes. It is no
# part of the gate. The cost of a file grows no faster than the square of its assertions: twice as many may take at most
# four times as long, beside the time that the program takes to start.
set -eu
cd "$(dirname "$0")/.."
program=crates/gnatprove/out/gnatprove
[ -x "$program" ] || { echo "build the program first: (cd crates/gnatprove && rt run -- prove x.adb)"; exit 1; }
folder=$(mktemp -d)
trap 'rm -rf "$folder"' EXIT

# a name of 100 bytes that ends in the number
name() { printf 'N%0*dX%d' 97 0 "$1"; }

write_file() {
    local count=$1 k
    {
        printf 'procedure Bench ('
        for k in 1 2 3 4 5 6 7 8; do
            [ "$k" = 1 ] || printf '; '
            printf '%s : in Integer' "$(name "$k")"
        done
        printf ') is\nbegin\n'
        for ((k = 0; k < count; k++)); do
            printf '   pragma Assert (%s < %s);\n' "$(name $((k % 8 + 1)))" "$(name $(((k / 8) % 8 + 1)))"
        done
        printf 'end Bench;\n'
    } > "$folder/bench_$count.adb"
}

runs=20
for count in 1 125 250 500; do
    write_file "$count"
    start=$(date +%s%N)
    for ((run = 0; run < runs; run++)); do
        (cd "$folder" && "$OLDPWD/$program" prove "bench_$count.adb" > out) || [ $? = 1 ]
    done
    end=$(date +%s%N)
    echo "$count assertions, $(stat -c %s "$folder/bench_$count.adb") bytes: $(((end - start) / runs / 1000)) microseconds a run, $(grep -c . "$folder/out") rows"
done
