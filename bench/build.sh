#!/bin/sh
# Builds the benchmark, bench/target/PROCESSOR/bench: our static library and the Rust's text in one program.
#   bench/build.sh [FOLDER OF THE RUST'S TEXT]      (as oracle/build.sh)
# FOR: the processor, the machine's own where none is given; LIBDOOR: its static library (bindings/tools.sh).
# LTO=fat: the Rust optimised across its crates when it is linked, as ours is.
set -eu
bench=$(cd "$(dirname "$0")" && pwd)
here=$bench/../oracle
. "$here/machine.sh"
need_library
env -u LIBDOOR "$here/build.sh" "$@"

# The oracle's tree, with the benchmark's door in front of the oracle's: rust.rs says why.
out=$bench/target/$processor
rm -rf "$out"
mkdir -p "$out/lib"
cp -r "$target/russh" "$out/russh"
mv "$out/russh/src/door" "$out/russh/src/oracle"
mkdir "$out/russh/src/door"
mv "$out/russh/src/oracle" "$out/russh/src/door/oracle"
cp "$bench/rust.rs" "$out/russh/src/door/mod.rs"

externs=$(for f in "$target"/lib/lib*.rlib "$target"/lib/lib*.so; do
    name=${f##*/lib} && name=${name%.*}
    case $name in russh | cases | model) ;; *) echo "--extern $name=$f" ;; esac
done)
release='--edition 2024 -C opt-level=3 -C codegen-units=1'
lto=${LTO:+-C lto=$LTO}
$rustc $release --crate-type rlib --crate-name russh --cfg 'feature="ring"' --cap-lints allow -L "$target/lib" $externs \
    --out-dir "$out/lib" "$out/russh/src/lib.rs"
$rustc $release $lto --crate-type bin --crate-name bench -L "$target/lib" $externs \
    --extern "russh=$out/lib/librussh.rlib" -C link-arg="$LIBDOOR" -o "$out/bench" "$bench/src/main.rs"
echo "bench: built for $processor by $($host_rustc --version), $release $lto"
