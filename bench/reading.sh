#!/usr/bin/env bash
# Times the built program on sources of 512 KiB and 1 MiB that it reads and doesn't prove, and prints the memory that it
# takes for each token; where GNAT is there, also the time in which GNAT checks the syntax of the same file, and how many
# times as long ours is. It is no part of the gate. 1 MiB is to take at most 2.2 times as long as 512 KiB and at most 4 times
# as long as GNAT, in less than 250 bytes a token.
set -eu
cd "$(dirname "$0")/.."
program=$PWD/crates/gnatprove/out/gnatprove
[ -x "$program" ] || { echo "build the program first: (cd crates/gnatprove && rt run -- prove x.adb)"; exit 1; }
folder=$(mktemp -d)
trap 'rm -rf "$folder"' EXIT

# ordinary statements, 26 tokens in 4 lines, over and over up to so many bytes; prints the number of tokens
write_file() {
    awk -v most="$1" 'BEGIN {
        head = "procedure Bench is\n   X, Y : Integer := 0;\nbegin\n"; tail = "end Bench;\n"
        part = "   if X < Y + 10 then  -- a comment\n      X := X + 1;\n   end if;\n   Y := (X * 2) mod 7;\n"
        printf "%s", head; size = length(head) + length(tail); tokens = 15
        while (size + length(part) <= most) { printf "%s", part; size += length(part); tokens += 26 }
        printf "%s", tail; print tokens > "/dev/stderr"
    }' > "$folder/bench.adb" 2> "$folder/tokens"
}

# the least of five times of a processor in microseconds, and the greatest memory in bytes, of a command with this status
measure() {
    python3 -c '
import os, subprocess, sys
times, memory = [], 0
for _ in range(5):
    child = subprocess.Popen(sys.argv[2:], stdout=open("out", "wb"))
    _, status, used = os.wait4(child.pid, 0)
    if os.waitstatus_to_exitcode(status) != int(sys.argv[1]):
        sys.exit("the file was not answered as it is to be: " + " ".join(sys.argv[2:]))
    times.append(used.ru_utime + used.ru_stime)
    memory = max(memory, used.ru_maxrss * 1024)
print(int(min(times) * 1e6), memory)' "$@"
}

cd "$folder"
for size in 524288 1048576; do
    write_file "$size"
    read -r took memory < <(measure 2 "$program" prove bench.adb)
    tokens=$(cat tokens)
    echo "$(stat -c %s bench.adb) bytes, $tokens tokens: $took microseconds, $((memory / tokens)) bytes of memory a token; $(cat out)"
    if command -v gnatmake > /dev/null; then
        read -r theirs memory < <(measure 0 gcc -c -gnats bench.adb)
        echo "GNAT: $theirs microseconds; ours are $(awk "BEGIN { printf \"%.1f\", $took / $theirs }") times that"
    fi
done
