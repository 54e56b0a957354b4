#!/bin/sh
# Builds the static library and the programs over it, runs each and compares what it prints with NAME.expected. Needs a
# C compiler and rustc; where g++ is there, the C programs are built as C++ too.
set -eu
cd "$(dirname "$0")/.."
out=target/examples
library=crates/solgwid/out/libsolgwid.a
mkdir -p "$out"
(cd crates/solgwid && rt lib) >"$out/lib.log" 2>&1 || { cat "$out/lib.log"; exit 1; }

# Runs the example $1, built as the program $2 from the language $3.
compare() {
    input=/dev/null
    if [ "$1" = levy ]; then input=examples/meadow.txt; fi
    "$2" <"$input" | diff "examples/$1.expected" -
    echo "$1, $3: as expected"
}

warnings='-Wall -Wextra -Wpedantic -Wconversion -Werror'
for name in square levy refusals; do
    cc -std=c11 $warnings -O2 -Iinclude "examples/$name.c" "$library" -o "$out/$name"
    compare "$name" "$out/$name" C
    if command -v g++ >/dev/null; then
        g++ -std=c++11 $warnings -O2 -Iinclude -x c++ "examples/$name.c" -x none "$library" -o "$out/${name}_cpp"
        compare "$name" "$out/${name}_cpp" C++
    fi
done
rustc -D warnings -O --edition 2021 examples/square.rs -L crates/solgwid/out -l static=solgwid -o "$out/square_rs"
compare square "$out/square_rs" Rust
