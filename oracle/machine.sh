# What builds and what runs: sourced by the commands of this folder and by the benchmark's. Everything is built for one
# processor, the machine's own where FOR names no other (bindings/tools.sh, which also has LIBDOOR and need_library); what is
# built for another is run by an emulator.
#
#   rustc       the compiler, with its target and linker
#   host_rustc  the same compiler for what runs while compiling (a proc-macro)
#   runner      what runs the result: nothing, or the emulator
#   target      where the oracle's build stands (ORACLE_TARGET, if set)
# `here` is this folder.
. "$here/../bindings/tools.sh"
need_rust
host_rustc=$RUSTC
if [ -z "$RUN" ]; then
    rustc=$RUSTC runner='' target=${ORACLE_TARGET:-$here/target}
else
    need "$CC" "$RUN"
    rustc="$RUSTC --target $triple -C linker=$CC" runner=$RUN target=${ORACLE_TARGET:-$here/target/$processor}
fi
