#!/bin/sh
# Builds the benchmark, counts instructions, takes times, and prints the tables of docs/BENCHMARKS.md.
#   bench/run.sh
#   bench/run.sh ours      counts ours alone, and prints the counts: bench/ratios.awk holds those of two libraries together
# LIBDOOR: the x86-64 library, where it is not the repository's; LTO: as in bench/build.sh. RUSSH_TEXT: the folder of the
# Rust's text; CAPTURES: real first packets. They default to ../shared/docs/src beside the repository and to
# crates/peers/data.
#
# Instructions are those of the x86-64 library on every machine, so that counts can be held against each other: by callgrind
# on an x86-64 machine, by a plugin of the emulator on another. Those of a call are those of a run with 2N calls less those of
# a run with N, by N, so that whatever else a run does falls out. Times are those of the machine's own library: nothing is
# timed under an emulator.
set -eu
bench=$(cd "$(dirname "$0")" && pwd)
captures=${CAPTURES:-$bench/../crates/peers/data}
calls=100
case $* in '' | ours) ;; *) sed -n 's/^#  *bench/usage: bench/p' "$0" >&2 && exit 2 ;; esac
if [ ! -f "$captures/INDEX.tsv" ]; then
    echo "bench: no INDEX.tsv in '$captures': name the folder of the captures by CAPTURES" >&2
    exit 2
fi
export CAPTURES="$(cd "$captures" && pwd)"
rm -rf "$bench/target"
FOR=x86_64 "$bench/build.sh" ${RUSSH_TEXT:+"$RUSSH_TEXT"} >&2
machine=$(uname -m)
own=$bench/../target/staticlib/$machine/libdoor.a
if [ $# -eq 0 ] && [ "$machine" != x86_64 ] && [ -f "$own" ]; then
    FOR=$machine LIBDOOR=$own "$bench/build.sh" ${RUSSH_TEXT:+"$RUSSH_TEXT"} >&2
fi
cd "$bench/target/x86_64"

# libc picks its memcpy by the machine. For long ones it picks `rep movs`, of which counters count each byte: that one is
# ruled out. The other sides have the widest registers of the machine; a side named SSE2 has those that every x86-64 has.
libc() {
    case $1 in
    *SSE2*) echo glibc.cpu.hwcaps=-ERMS,-FSRM,-AVX_Fast_Unaligned_Load,-SSSE3 ;;
    *) echo glibc.cpu.hwcaps=-ERMS,-FSRM ;;
    esac
}

case $machine in
x86_64)
    command -v valgrind >/dev/null || { echo "bench: no valgrind: apt-get install valgrind" >&2; exit 2; }
    runner=''
    counter='valgrind --tool=callgrind --callgrind-out-file=/dev/null'
    counted='s/^==[0-9]*== Collected : *\([0-9]*\).*/\1/p'
    tool="callgrind of $(valgrind --version)"
    ;;
*)
    runner=qemu-x86_64
    command -v cc >/dev/null || { echo "bench: no cc for the plugin: apt-get install gcc libc6-dev" >&2; exit 2; }
    cc -O2 -Wall -Wextra -shared -fPIC -o count.so ../../count.c
    counter="qemu-x86_64 -plugin ./count.so"
    counted='s/^instructions: //p'
    tool="bench/count.c under $(qemu-x86_64 --version | head -n 1)"
    ;;
esac

count() { # GROUP CASE SIDE CALLS
    GLIBC_TUNABLES=$(libc "$3") $counter ./bench run "$@" > log 2>&1 </dev/null || {
        echo "bench: a run of '$1', '$2', '$3' failed:" >&2
        cat log >&2
        exit 1
    }
    sed -n "$counted" log
}

tab=$(printf '\t')
$runner ./bench list > list
if [ $# -ne 0 ]; then grep "${tab}ours\$" list > ours && mv ours list; fi
while IFS=$tab read -r group case side; do
    once=$(count "$group" "$case" "$side" $calls)
    twice=$(count "$group" "$case" "$side" $((2 * calls)))
    printf '%s\t%s\t%s\t' "$group" "$case" "$side"
    awk -v once="$once" -v twice="$twice" -v calls=$calls 'BEGIN { printf "%.2f\n", (twice - once) / calls }'
done < list > counts
if [ $# -ne 0 ]; then exec cat counts; fi

echo "Instructions counted by $tool."
timed=../$machine/bench
if [ -x "$timed" ]; then
    "$timed" time > times
    echo "Times of the $machine library, on this machine."
    exec "$timed" table counts times
fi
echo "No times: bindings/cross.sh $machine makes the library that can be timed here."
exec $runner ./bench table counts
