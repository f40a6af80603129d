#!/bin/sh
# Installs the library for the machine at hand below target/examples, builds over it, as a program
# elsewhere would, an example in C, found by pkg-config, and one in Rust, runs both, and compares what
# they print with the file `expected`. Before that the header is held against the source and compiled
# alone, as C and as C++; after it the stack that calls take is measured.
# It needs rt, a C99 compiler (CC, or cc), a C++17 compiler (CXX, or c++), pkg-config (PKG_CONFIG, or
# pkg-config, or pkgconf) and rustc.
set -eu
cd "$(dirname "$0")/.."
cc=${CC:-cc}
cxx=${CXX:-c++}
pkg_config=${PKG_CONFIG:-$(command -v pkg-config || command -v pkgconf || echo pkg-config)}
missing=
for program in rt "$cc" "$cxx" "$pkg_config" rustc; do
    command -v "$program" >/dev/null || missing="$missing $program"
done
[ -z "$missing" ] || { echo "run.sh: not on this machine:$missing" >&2; exit 2; }

room=target/examples
strict="-Wall -Wextra -pedantic -Werror"
mkdir -p $room
tools/check-header
printf '#include "haspbarley.h"\n' >$room/alone.c
"$cc" -std=c99 $strict -Iinclude -c $room/alone.c -o $room/alone.o
"$cxx" -std=c++17 $strict -Iinclude -c -x c++ $room/alone.c -o $room/alone.o

rm -rf $room/prefix
tools/install $room/prefix >$room/install.log 2>&1 || { cat $room/install.log; exit 1; }
found() { PKG_CONFIG_PATH=$room/prefix/lib/pkgconfig "$pkg_config" "$@" haspbarley; }
echo "installed: version $(found --modversion)"
"$cc" -std=c99 $strict -O2 $(found --cflags) examples/c/example.c $(found --libs) -o $room/c
rustc --edition 2021 -O -L native=$room/prefix/lib -l static=haspbarley examples/rust/example.rs -o $room/rust
for language in c rust; do
    $room/$language >$room/$language.out
    diff examples/expected $room/$language.out
    echo "$language: as expected"
done

"$cc" -std=c99 $strict -O2 $(found --cflags) examples/c/stack.c $(found --libs) -lpthread -o $room/stack
$room/stack >$room/stack.out || { cat $room/stack.out; echo "run.sh: more stack than the header says" >&2; exit 1; }
echo "stack: within what the header says; $(head -n 1 $room/stack.out)"
