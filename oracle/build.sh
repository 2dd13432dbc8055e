#!/bin/sh
# Builds the oracle: 16 files of russh 0.65.0, unchanged, with stand-ins for what is absent.
#   oracle/build.sh [FOLDER OF THE RUST'S TEXT]      (../shared/docs/src beside the repository, where none is given)
# FOR: the processor, the machine's own where none is given (bindings/tools.sh).
# LIBDOOR: our static library, if it is to be compared too.
# ORACLE_LTO: not empty, the comparison is optimised across crates.
# Needs rustc alone: no registry, no network. What is built stands in oracle/target/.
set -eu
here=$(cd "$(dirname "$0")" && pwd)
. "$here/machine.sh"
text=${1:-$here/../../shared/docs/src}
if [ ! -f "$text/src/negotiation.rs" ]; then
    echo "oracle: no russh 0.65.0 text in '$text' (no src/negotiation.rs there): give its folder as the first argument" >&2
    exit 2
fi
text=$(cd "$text" && pwd)
tree=$target/russh/src

# The 16 files, by name, as SHA256SUMS lists them; the copies are checked, so what is compiled is what was checked.
rm -rf "$target/russh"
mkdir -p "$tree" "$target/lib"
cp -r "$here/standins/russh/." "$tree"
while read -r _ file; do
    mkdir -p "$target/russh/$(dirname "$file")"
    if [ -e "$target/russh/$file" ]; then echo "oracle: a stand-in takes the place of $file" >&2; exit 1; fi
    cp "$text/$file" "$target/russh/$file"
done < "$here/SHA256SUMS"
(cd "$target/russh" && sha256sum --quiet --strict -c "$here/SHA256SUMS") || {
    echo "oracle: the text differs from SHA256SUMS: nothing is built" >&2
    exit 1
}
cp -r "$here/src/door" "$tree/door"

lib() { # NAME FILE
    $rustc --edition 2024 -O --crate-type rlib --crate-name "$1" -L "$target/lib" --out-dir "$target/lib" "$2" \
        --cap-lints allow $(externs)
}
externs() {
    for f in "$target"/lib/lib*.rlib "$target"/lib/lib*.so; do
        [ -e "$f" ] || continue
        name=${f##*/lib}
        echo "--extern ${name%.*}=$f"
    done
}

rm -f "$target"/lib/*
# in the order in which they use each other
for name in signature ssh_encoding ssh_key rand_core rand log delegate byteorder bytes tokio generic_array digest hmac \
    sha1 sha2 subtle cipher aes ctr cbc ring p256 p384 p521; do
    lib $name "$here/standins/$name.rs"
done
$host_rustc --edition 2024 -O --crate-type proc-macro --crate-name enum_dispatch --out-dir "$target/lib" \
    "$here/standins/enum_dispatch.rs"
lib plain "$here/src/plain.rs"
$rustc --edition 2024 -O --crate-type rlib --crate-name russh --cfg 'feature="ring"' -L "$target/lib" \
    --out-dir "$target/lib" "$tree/lib.rs" --cap-lints allow $(externs)
lib cases "$here/cases/lib.rs"
lib model "$here/model/lib.rs"
lib ours "$here/src/ours/lib.rs"
$rustc --edition 2024 -O --crate-type bin --crate-name record -L "$target/lib" -o "$target/record" \
    "$here/src/record.rs" $(externs)
linked=''
if [ -n "${LIBDOOR:-}" ]; then linked="--cfg library -C link-arg=$LIBDOOR"; fi
$rustc --edition 2024 -O ${ORACLE_LTO:+-C lto=fat -C codegen-units=1} --crate-type bin --crate-name compare $linked \
    -L "$target/lib" -o "$target/compare" "$here/src/compare/main.rs" $(externs)
echo "oracle: 16 files as in SHA256SUMS, built"
