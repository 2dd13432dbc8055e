#!/bin/sh
# Makes the static library for other processors, of the module that the kit's compiler makes for x86-64.
#   bindings/cross.sh aarch64|riscv64|armv7 ..      writes target/staticlib/PROCESSOR/libdoor.a for each
#
# The library is made for x86-64 (bindings/library.sh): rattle hands LLVM's bitcode to the clang in the folder that --toolchain
# names. Here rattle makes it once more, in rt's words but for that folder, which is our own: links to the kit's files but for
# a bin/clang that keeps a copy of the module and then runs the kit's. That this changes nothing is checked each time: the
# archive is that of bindings/library.sh, and the module, read back from its text and compiled in the same words, is the
# archive's object, byte for byte. Then the text is retargeted (retarget.awk), and compiled by the kit's clang in the same
# words but for the target.
set -eu
root=$(cd "$(dirname "$0")/.." && pwd)
usage() {
    sed -n 's/^#  *bindings/usage: bindings/p' "$0" >&2
    exit 2
}
[ $# -ge 1 ] || usage
for processor; do
    case $processor in aarch64 | riscv64 | armv7) ;; *) usage ;; esac
done

stop() { # WHY
    echo "cross: $1" >&2
    exit 1
}

cd "$root"
work=$root/target/cross
kit=$(dirname "$(rt doc)")
clang=$kit/toolchain/bin/clang
[ -x "$clang" ] || stop "the kit has no clang at $clang"
rm -rf "$work"
mkdir -p "$work/toolchain/bin"

# Links to whatever stands in the kit's folder WHERE, but for EXCEPT, which is made here.
links() { # WHERE EXCEPT
    for file in "$kit/$1"/*; do
        [ "${file##*/}" = "$2" ] || ln -s "$file" "$work/$1/"
    done
}
links toolchain bin
links toolchain/bin clang
cat >"$work/toolchain/bin/clang" <<END
#!/bin/sh
for word; do
    case \$word in *.bc) cp "\$word" "$work/module.bc" ;; esac
done
printf '%s\n' "\$@" >"$work/words"
exec "$clang" "\$@"
END
chmod +x "$work/toolchain/bin/clang"

# What rt tells rattle of crates/door_c: the libraries that crates.txt lists for it, and where those find theirs.
kept() { # ARCHIVE
    archive=$1
    set --
    for crate in std $(sed -n 's/^door_c staticlib: *//p' crates.txt); do
        made=$root/crates/$crate/out/rlib/$crate.rlib
        [ -e "$made" ] || made=$kit/rlibs/$crate.rlib
        set -- "$@" --extern "$crate=$made"
    done
    for made in "$root"/crates/*/out/rlib; do set -- "$@" -L "dependency=$made"; done
    (cd crates/door_c && "$kit/bin/rattle" build --crate-name door_c src/lib.rt --crate-type staticlib --cpu x86-64 "$@" \
        -L "dependency=$kit/rlibs" --antt-project "$kit/rattle/logic/antt-project.json" --logic-built "$kit/logic_built" \
        --toolchain "$work/toolchain" -o "$archive")
}

logged() { # LOG COMMAND..
    log=$work/$1.log && shift
    "$@" >"$log" 2>&1 || { cat "$log" >&2; stop "$1 failed"; }
}
logged library bindings/library.sh
logged kept kept "$work/kept.a"
cmp target/staticlib/libdoor.a "$work/kept.a" || stop "the archive is not that of bindings/library.sh"
[ -f "$work/module.bc" ] || stop "the kit's compiler handed no bitcode to clang"

# The kit's own words, with this input and output, and a target where one is named.
compiled() { # INPUT OUTPUT [TRIPLE]
    input=$1 output=$2 other=${3:-} skip=''
    set --
    while IFS= read -r word; do
        if [ -n "$skip" ]; then skip='' && continue; fi
        case $word in
        -o) skip=1 ;;
        --target=*) set -- "$@" "--target=${other:-${word#--target=}}" ;;
        -march=*) [ -n "$other" ] || set -- "$@" "$word" ;;
        --sysroot=*) ;;
        *.bc) set -- "$@" "$input" ;;
        *) set -- "$@" "$word" ;;
        esac
    done <"$work/words"
    "$clang" "$@" -o "$output"
}

# without its own target named, clang would put this machine's into the text
"$clang" "$(grep '^--target=' "$work/words")" -S -emit-llvm -Xclang -disable-llvm-passes -x ir -o "$work/module.ll" \
    "$work/module.bc"
compiled "$work/module.ll" "$work/again.o"
ar=$kit/toolchain/bin/llvm-ar
"$ar" p target/staticlib/libdoor.a >"$work/archived.o"
cmp "$work/archived.o" "$work/again.o" || stop "the module's text, compiled again for x86-64, is not the archive's object"
echo "cross: the archive is that of bindings/library.sh, and its module's text gives the same object"

cross() { # PROCESSOR
    case $1 in armv7) triple=armv7-unknown-linux-gnueabihf ;; *) triple=$1-unknown-linux-gnu ;; esac
    "$clang" --target=$triple -S -emit-llvm -x c -o "$work/target" /dev/null
    awk -v processor="$1" -v target="$work/target" -f bindings/retarget.awk "$work/module.ll" >"$work/$1.ll" ||
        stop "nothing is made for $1"
    mkdir -p "target/staticlib/$1" "$work/$1"
    rm -f "target/staticlib/$1/libdoor.a"
    compiled "$work/$1.ll" "$work/$1/door.o" $triple
    "$ar" rcsD "target/staticlib/$1/libdoor.a" "$work/$1/door.o"
    changed=$(diff "$work/module.ll" "$work/$1.ll" | grep -c '^>')
    echo "cross: target/staticlib/$1/libdoor.a, of the same module: $changed lines of its text are changed"
}
for processor; do cross "$processor"; done
