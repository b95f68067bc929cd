#!/bin/sh
# make_histories.sh DIR: makes what the program `histories` is run on and must write, of the further histories that make_bench.py put into DIR:
# the bench files, their names as arguments, and for each its name and the lines that the independent implementation printed for it.
more=$(cd "$1" && pwd) || exit 2
cd "$(dirname "$0")/../crates/histories" || exit 2
mkdir -p data
: >args
: >stdout
for expected in "$more"/*.stdout; do
    name=$(basename "$expected" .stdout)
    cp "$more/$name.stdin" "data/$name.bench"
    echo "$name.bench" >>args
    echo "$name.bench" >>stdout
    cat "$expected" >>stdout
done
