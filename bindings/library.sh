#!/bin/sh
# Proves the library's crates and makes the static library for x86-64: target/staticlib/libdoor.a.
#   bindings/library.sh
#
# It is the archive that 'rt lib' makes of crates/door_c, under the name that callers link. It is compiled for every x86-64:
# left to itself, rt compiles for those from about 2009 on (x86-64-v2). What rt kept of an earlier run is not proved again.
set -eu
root=$(cd "$(dirname "$0")/.." && pwd)
[ $# -eq 0 ] || { sed -n 's/^#  *bindings/usage: bindings/p' "$0" >&2 && exit 2; }
command -v rt >/dev/null || { echo "library: the toolchain's rt is not on the path" >&2; exit 2; }

made=$root/crates/door_c/out/libdoor_c.a
library=$root/target/staticlib/libdoor.a
(cd "$root/crates/door_c" && rt lib --cpu x86-64) || {
    echo "library: 'rt lib' failed in crates/door_c, and nothing is made" >&2
    exit 1
}
mkdir -p "$(dirname "$library")"
cp "$made" "$library.new"
mv "$library.new" "$library"
echo "library: target/staticlib/libdoor.a"
