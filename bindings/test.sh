#!/bin/sh
# Tests the header, the C example and the Rust wrapper against the static library, and what retargets it.
#   bindings/test.sh [c|rust]      both, where none is named
# FOR=aarch64 (x86_64, riscv64, armv7) for another processor than the machine's own, by a cross compiler and an emulator: see
# tools.sh, also on LIBDOOR.
set -eu
. "$(dirname "$0")/tools.sh"
header=$root/include/harupesat.h

# The header twice, so that its guard is tried too, and one function's address, so that its linkage is.
sample='#include "harupesat.h"
#include "harupesat.h"
harupesat_shown (*shows)(const uint8_t *, harupesat_size, harupesat_size, harupesat_size) = harupesat_show;'

compiles() { # NAME COMPILER FLAG..
    name=$1 && shift
    echo "$sample" | "$@" -Wall -Wextra -Werror -pedantic -I "$root/include" -c -o "$built/sample.o" -
    nm "$built/sample.o" | grep -q ' U harupesat_show$' || { echo "header: no C linkage as $name" >&2; exit 1; }
    echo "header: compiles as $name"
}

# The functions of a text: what is followed by a parenthesis.
functions() {
    grep -o 'harupesat_[a-z0-9_]*(' | tr -d '(' | sort -u
}

same_names() { # WHO NAMES
    "$CC" -E -P "$header" | functions >"$built/declared"
    if ! echo "$2" | diff "$built/declared" - >&2; then
        echo "header: what it declares (<) is not what $1 (>)" >&2
        exit 1
    fi
    echo "header: its $(wc -l <"$built/declared") functions are those that $1"
}

symbols() {
    exported=$("$NM" --defined-only --extern-only "$LIBDOOR" | awk 'NF == 3 { print $3 }' | sort -u)
    same_names 'the library exports' "$exported"
    wanted=$("$NM" -u "$LIBDOOR" | awk '$1 == "U" { print $2 }' | sort -u | grep -vx 'memcpy\|memmove\|memset' || true)
    if [ -n "$wanted" ]; then
        echo "header: the library wants more than memcpy, memmove and memset: $wanted" >&2
        exit 1
    fi
    echo "header: the library wants no more than memcpy, memmove and memset"
}

# $RUN is empty for the machine's own processor, and $LINK too.
known_answers() {
    rm -f "$built"/test-*.o
    for file in "$root"/bindings/c/test/*.c; do
        "$CC" $strict -O1 -I "$root/include" -c -o "$built/test-$(basename "$file" .c).o" "$file"
    done
    called=$("$NM" -u "$built"/test-*.o | awk '$2 ~ /^harupesat_/ { print $2 }' | sort -u)
    same_names 'its test calls' "$called"
    "$CC" $LINK -o "$built/test" "$built"/test-*.o "$LIBDOOR"
    $RUN "$built/test"
}

c() {
    need "$CC" "$NM" nm c++ ${RUN:+"$RUN"}
    compiles C99 "$CC" -std=c99 -x c
    compiles C++11 c++ -std=c++11 -x c++ # the machine's own: what is judged is the language
    symbols
    known_answers
    example c
    "$root/bindings/retarget_test.sh"
}

rust() {
    need "$CC" cargo ${RUN:+"$RUN"}
    need_rust
    same_names 'the wrapper declares' "$(functions <"$root/bindings/rust/src/ffi.rs")"
    (cd "$root/bindings/rust" && cargo_for test)
    example rust
}

example() { # LANGUAGE
    "$root/bindings/example.sh" "$1" >"$built/example.stdout"
    diff "$root/bindings/both_ends.stdout" "$built/example.stdout" >&2
    echo "example: the $1 one prints bindings/both_ends.stdout"
}

need_library
mkdir -p "$built"
case ${1:-both} in
c) c ;;
rust) rust ;;
both) c; rust ;;
*) sed -n 's/^#  *bindings/usage: bindings/p' "$0" >&2 && exit 2 ;;
esac
echo "bindings: all passed"
