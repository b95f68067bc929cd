#!/bin/sh
# check.sh EMULATOR OUT FILE..: runs OUT/host on bench files, and compares each session's record file with what the program records writes for
# the session's bench file. EMULATOR is empty where x86-64 programs run by themselves. Ends with 'N passed, M failed'.
set -u
emulator=$1 out=$2
shift 2
tools=$(dirname "$(rt doc)")/toolchain
rm -rf "$out/records" "$out/wanted"
mkdir -p "$out/records" "$out/wanted"
${emulator:+"$emulator"} "$out/host" "$out/records" "$@" || exit 1
files=0
for file in "$@"; do
    ${emulator:+"$emulator"} "$tools/lib/ld-linux-x86-64.so.2" --library-path "$tools/lib" ../../crates/records/out/records <"$file" >"$out/wanted/$files" || exit 1
    files=$((files + 1))
done
session=0 passed=0 failed=0
for written in "$out/records"/*.records; do
    if cmp -s "$written" "$out/wanted/$((session % files))"; then
        passed=$((passed + 1))
    else
        failed=$((failed + 1))
        echo "differs: $written"
    fi
    session=$((session + 1))
done
echo "$passed passed, $failed failed"
[ "$failed" -eq 0 ] && [ "$passed" -eq 400 ]
