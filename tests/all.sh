#!/bin/sh
# What the gate does not run: the library from C, C++ and Rust, the program's input and output in pieces, the test data against
# their makers, and the comparison with the original. Exit status 0: nothing failed.
#
#     STYLE_DECK_RUST=<folder of the original files> sh tests/all.sh
cd "$(dirname "$0")/.." || exit 1
made=target/tests
failed=0

# Runs a command, and prints what it said only if it fails.
try() {
    what=$1
    shift
    if "$@" >"$made/log" 2>&1; then
        echo "passed: $what"
    else
        echo "FAILED: $what"
        cat "$made/log"
        failed=1
    fi
}

# Compiles a file and links the library to it: the program's name, the file, the compiler and its words.
compile() {
    program=$made/$1 file=$2
    shift 2
    "$@" -O2 -Wall -Wextra -pedantic -Werror -Iinclude "$file" -x none crates/capi/out/libcapi.a -lpthread -o "$program"
}

# The engine on the sample deck prints these lines.
engine_prints() {
    "$made/$1" crates/verify/stdin >"$made/printed" && diff -u - "$made/printed" <<'LINES'
confirmed: elements 2, edges 1, reasons 0
edge of role 0 from 1 to 0
axiom 0 holds
axiom 1 holds
concept 2 at element 1 is true
axiom 1 asked alone holds
LINES
}

# On that deck with 26 for the tag of its first axiom it tells the fault and its word, and does not succeed.
engine_refuses() {
    cp crates/verify/stdin "$made/faulty" && printf '\032' | dd of="$made/faulty" bs=1 seek=88 conv=notrunc || return 1
    ! "$made/$1" "$made/faulty" >"$made/printed" && echo "refused 12 at word 22" | diff -u - "$made/printed"
}

library() { (cd crates/capi && rt lib); }
program() { (cd crates/verify && rt run <stdin); }
wrapper() { (cd bindings/rust && cargo test --offline); }
readings() { (cd tests/differential && cargo test --offline --release); }
compared() { (cd tests/differential && cargo run --offline --release -- 1 20000); }

mkdir -p "$made" || exit 1
try "the static library" library
for language in "c99 cc -std=c99" "c++17 c++ -x c++ -std=c++17"; do
    set -- $language
    standard=$1
    shift
    try "examples/engine.c compiles as $standard" compile "engine-$standard" examples/engine.c "$@"
    try "examples/engine.c prints what it should ($standard)" engine_prints "engine-$standard"
    try "examples/engine.c tells the word of a fault ($standard)" engine_refuses "engine-$standard"
    try "tests/empty.c compiles as $standard" compile "empty-$standard" tests/empty.c "$@"
    try "empty buffers may be NULL ($standard)" "$made/empty-$standard"
done
for maker in decks judgements universals runs reports; do
    try "test data of make_$maker.py" python3 tests/make_$maker.py --check
done
try "the Rust wrapper's tests" wrapper
try "the program" program
try "its input and output, whole and in pieces" python3 tests/streams.py
if [ -n "$STYLE_DECK_RUST" ]; then
    try "the comparison's reader of decks" readings
    try "20,000 decks compared with the original" compared
else
    echo "skipped: 20,000 decks compared with the original; set STYLE_DECK_RUST to the folder of its files"
fi
exit $failed
