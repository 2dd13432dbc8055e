#!/bin/sh
# Tests retarget.awk on a small module for each row of its table: what comes out, and what is refused. Needs awk alone.
#   bindings/retarget_test.sh
set -eu
here=$(cd "$(dirname "$0")" && pwd)
work=$(mktemp -d)
trap 'rm -rf "$work"' EXIT
tried=0
printf 'target datalayout = "theirs"\ntarget triple = "theirs"\n' >"$work/target"

# A module with one function: its head, and the lines of its body.
module() { # LAYOUT CPU HEAD LINE..
    printf 'target datalayout = "%s"\ntarget triple = "%s"\n' "$1" "$1"
    head=$3 cpu=$2
    shift 3
    printf '%s\n' "$head" start: "$@" '}' "attributes #0 = { nounwind$cpu }"
}

retargeted() { # PROCESSOR
    awk -v processor="$1" -v target="$work/target" -f "$here/retarget.awk" "$work/in" >"$work/out" 2>"$work/said"
}

wrong() { # WHAT
    echo "retarget: $1:" >&2
    cat "$work/in" "$work/out" "$work/said" >&2
    exit 1
}

given() { # HEAD LINE..
    module ours ' "target-cpu"="x86-64"' "$@" >"$work/in"
    as_it_comes=$(module theirs '' "$@")
}

comes() { # PROCESSORS: as it was given, but for the target
    for p in $1; do
        retargeted "$p" && [ "$(cat "$work/out")" = "$as_it_comes" ] || wrong "$p does not leave it as it comes"
        tried=$((tried + 1))
    done
}

becomes() { # PROCESSORS HEAD LINE..
    processors=$1 && shift
    want=$(module theirs '' "$@")
    for p in $processors; do
        retargeted "$p" && [ "$(cat "$work/out")" = "$want" ] || wrong "$p does not make of it what it should"
        tried=$((tried + 1))
    done
}

refused() { # PROCESSORS
    for p in $1; do
        if retargeted "$p"; then wrong "$p does not refuse it"; fi
        tried=$((tried + 1))
    done
}

all='aarch64 riscv64 armv7'

# an answer over 16 bytes
given 'define noundef ptr @f(ptr noundef %a0, i8 noundef %a1) #0 {' '  ret ptr %a0'
comes 'riscv64 armv7'
becomes aarch64 'define void @f(ptr noundef sret(i8) %a0, i8 noundef %a1) #0 {' '  ret void'
given 'define noundef ptr @f(ptr noundef %a0, ptr noundef %a1) #0 {' '  ret ptr %a1'
refused "$all"

# an answer of 9 to 16 bytes
for answer in '{ i64, i8 }' '{ i64, i32 }' '{ i64, i64 }'; do
    given "define $answer @f(i8 noundef %a0) #0 {" "  %r1 = load $answer, ptr %r0, align 1" "  ret $answer %r1"
    comes 'aarch64 riscv64'
    becomes armv7 'define void @f(ptr noundef sret(i8) %answer, i8 noundef %a0) #0 {' \
        "  %r1 = load $answer, ptr %r0, align 1" "  store $answer %r1, ptr %answer, align 1" '  ret void'
    given "define $answer @f(i8 noundef %a0) #0 {" "  ret $answer %r1"
    refused armv7
done

# one of up to 8, and one of up to 4
given 'define i64 @f(i8 noundef %a0) #0 {' '  ret i64 %r1'
comes 'aarch64 riscv64'
refused armv7
given 'define i24 @f(i8 noundef %a0) #0 {' '  ret i24 %r1'
comes "$all"

# structs as parameters
given 'define i24 @f(i8 noundef %a0, ptr noundef byval([32 x i8]) align 8 %a1) #0 {' '  ret i24 %r1'
becomes 'aarch64 riscv64' 'define i24 @f(i8 noundef %a0, ptr noundef align 8 %a1) #0 {' '  ret i24 %r1'
refused armv7
given 'define i24 @f(i8 noundef %a0, i64 %a1, i64 %a2) #0 {' '  ret i24 %r1'
comes 'aarch64 riscv64'
refused armv7
n='i8 noundef %a'
given "define i24 @f(${n}0, ${n}1, ${n}2, ${n}3, ${n}4, ${n}5, ${n}6, i64 %a7, i64 %a8) #0 {" '  ret i24 %r1'
comes riscv64
refused 'aarch64 armv7'

# what is not in the table; an exported function called, and others; none exported, and one beside one that is
for answer in void float i128 '{ i32, i64 }' '{ i64, float }'; do
    given "define $answer @f(i8 noundef %a0) #0 {" "  ret $answer %r1"
    refused "$all"
done
given 'define i24 @f(i8 noundef %a0) #0 {' '  %r1 = call i24 @g(i8 %a0)' '  ret i24 %r1'
refused "$all"
given 'define i24 @f(i8 noundef %a0) #0 {' '  call void @"door::name::f"(ptr %r0, i8 %a0)' '  call void @llvm.trap()' \
    '  ret i24 %r1'
comes "$all"
given 'define internal noundef ptr @"door::f"(ptr noundef %a0) #0 {' '  ret ptr %a0'
refused "$all"
given 'define i24 @f(i8 noundef %a0) #0 {' '  ret i24 %r1' '}' 'define internal float @"door::f"(i64 %a0) #0 {' '  ret float %r1'
comes "$all"

echo "retarget: $tried retargetings as they should be"
