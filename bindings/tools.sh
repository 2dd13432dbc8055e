# Sourced by the scripts of bindings/, oracle/ and bench/: what builds and runs a program, for this machine or for another.
#   FOR                x86_64, aarch64, riscv64 or armv7: the processor; this machine's own where none is named
#   LIBDOOR            its static library; target/staticlib/libdoor.a (x86_64) or target/staticlib/FOR/libdoor.a where not set
# It sets
#   processor triple   the same as FOR; Rust's name for it
#   CC LINK NM RUN     compiler, its flags for a program, symbol lister, emulator (none for the machine's own processor)
#   strict built       the flags that C is held to; where the scripts of bindings/ build
root=$(cd "$(dirname "$0")/.." && pwd)
machine=$(uname -m)
case $machine in armv7l | armv8l) machine=armv7 ;; esac
processor=${FOR:-$machine}

case $processor in
x86_64) gnu=x86_64-linux-gnu triple=x86_64-unknown-linux-gnu emulator=qemu-x86_64 debian=amd64 ;;
aarch64) gnu=aarch64-linux-gnu triple=aarch64-unknown-linux-gnu emulator=qemu-aarch64 debian=arm64 ;;
riscv64) gnu=riscv64-linux-gnu triple=riscv64gc-unknown-linux-gnu emulator=qemu-riscv64 debian=riscv64 ;;
armv7) gnu=arm-linux-gnueabihf triple=armv7-unknown-linux-gnueabihf emulator=qemu-arm debian=armhf ;;
*) echo "$0: no library for a processor '$processor': FOR is x86_64, aarch64, riscv64 or armv7" >&2 && exit 2 ;;
esac

if [ "$processor" = "$machine" ]; then
    CC=${CC:-cc} LINK='' NM=nm RUN=''
    packages='apt-get install gcc g++ binutils rustc-web cargo-web'
else
    # linked statically, so that the emulator needs no C library of that processor beside it
    CC=$gnu-gcc LINK=-static NM=$gnu-nm RUN=$emulator
    packages="dpkg --add-architecture $debian && apt-get update
    apt-get install gcc-$(echo $gnu | tr _ -) g++ qemu-user rustc-web cargo-web libstd-rust-web-dev:$debian"
fi

case $processor in
x86_64) library=$root/target/staticlib/libdoor.a makes=bindings/library.sh ;;
*) library=$root/target/staticlib/$processor/libdoor.a makes="bindings/cross.sh $processor" ;;
esac

strict='-std=c99 -Wall -Wextra -Werror -pedantic'
built=$root/target/bindings/$processor

lacking() { # WHAT
    printf '%s: %s is not there. On Debian:\n    %s\n' "$0" "$1" "$packages" >&2
    exit 2
}

need() { # TOOL..
    for tool; do
        command -v "$tool" >/dev/null || lacking "$tool"
    done
}

need_library() {
    export LIBDOOR="${LIBDOOR:-$library}"
    case $LIBDOOR in /*) ;; *) LIBDOOR=$PWD/$LIBDOOR ;; esac
    [ -f "$LIBDOOR" ] && return
    echo "$0: no static library at $LIBDOOR: make it with '$makes', or say where it is by LIBDOOR" >&2
    exit 2
}

# The rustc on the path may know its own machine alone: the first one that can build for the processor is taken.
need_rust() {
    for rustc in "${RUSTC:-rustc}" /usr/bin/rustc; do
        if builds_for "$rustc"; then
            RUSTC=$rustc RUSTDOC=$(dirname "$(command -v "$rustc")")/rustdoc
            export RUSTC RUSTDOC
            return
        fi
    done
    lacking "a rustc with the target $triple"
}

builds_for() { # RUSTC
    libraries=$("$1" --print target-libdir --target "$triple" 2>/dev/null) && ls "$libraries"/libstd-* >/dev/null 2>&1
}

# cargo WORD.. for the processor: a plain cargo for the machine's own, with the cross linker and the emulator for another.
cargo_for() {
    if [ -z "$RUN" ]; then
        cargo "$@" --offline
    else
        name=CARGO_TARGET_$(echo "$triple" | tr a-z- A-Z_)
        env "${name}_LINKER=$CC" "${name}_RUNNER=$RUN" cargo "$@" --offline --target "$triple"
    fi
}
