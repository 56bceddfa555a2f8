#!/bin/sh
# Builds and runs the benches. Run it from the repository's top. Exit status 0: all measures are kept.
set -e
mkdir -p target
for name in deck eval; do
    (cd crates/bench_$name && rt lib)
    gcc -O2 -Wall -Wextra -o target/bench_$name tests/bench/$name.c crates/bench_$name/out/libbench_$name.a
done
(cd crates/capi && rt lib)
for name in deep stalls shared; do
    gcc -O2 -Wall -Wextra -o target/bench_$name tests/bench/$name.c crates/capi/out/libcapi.a -lpthread
done
(cd crates/verify && rt run <stdin)
target/bench_deck
(ulimit -s 8192 && target/bench_eval)
failed=0
target/bench_deep || failed=1
target/bench_stalls || failed=1
target/bench_shared || failed=1
python3 tests/bench/stalls.py || failed=1
exit $failed
