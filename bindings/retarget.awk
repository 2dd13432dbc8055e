# A module of the kit's compiler, as LLVM's text for x86-64, made one for another processor.
#   awk -v processor=aarch64|riscv64|armv7 -v target=FILE -f retarget.awk MODULE
# FILE has the two lines 'target datalayout' and 'target triple' of that processor.
#
# Instructions stay what they are: counts and places have 64 bits on every processor. What changes is the target, and how an
# exported function hands its answer back, since a convention is the processor's own:
#
#   answer of            x86-64 (as it comes)          aarch64               riscv64         armv7
#   over 16 bytes        first pointer, returned       pointer by `sret`     as it comes     as it comes
#   9 to 16 bytes        two registers                 as it comes           as it comes     first pointer
#   5 to 8 bytes         one register                  as it comes           as it comes     refused
#   up to 4 bytes        one register                  as it comes           as it comes     as it comes
#   parameter of
#   over 16 bytes        a copy on the stack (`byval`) pointer to a copy     likewise        refused
#   up to 16 bytes       one or two registers          as it comes, of at    as it comes     refused
#   (a struct)                                         most 8 in all
#
# Functions are found by these shapes and not by name; of a shape that is refused, or not in the table, nothing is made: exit
# status 1. No exported function has a struct as a parameter, or an answer of 5 to 8 bytes, today.

BEGIN {
    while ((getline line < target) > 0) {
        if (line ~ /^target datalayout/) layout = line
        if (line ~ /^target triple/) triple = line
    }
    if (layout == "" || triple == "") stop("no target lines in " target)
}

/^target datalayout/ { print layout; next }
/^target triple/ { print triple; next }
/^attributes/ { gsub(/ "target-cpu"="x86-64"/, "") } # what remains is the compiler's default for the processor

/^define / && !/^define (internal|private) / { enter() }
/^}/ { shape = "" }

# Inside an exported function whose answer is handed back in another way.
shape == "sret" && /^ *ret / { sub(/ret ptr %a0$/, "ret void") || stop("an answer that is not its first pointer") }
shape == "pointer" && /^ *ret / { $0 ~ /ret ptr %a0$/ || stop("an answer that is not its first pointer") }
shape == "store" && / = load \{ i64, i[0-9]+ \}, / { loaded[$1] = $NF }
shape == "store" && /^ *ret / {
    (value = $NF) in loaded || stop("an answer that was not loaded")
    sub(/^ *ret /, "")
    print "  store " $0 ", ptr %answer, align " loaded[value]
    $0 = "  ret void"
}
# Functions of the module have their path for a name, in quotes; what is called by a plain name is exported, or LLVM's own.
/ call .*@[A-Za-z_]/ && !/ call .*@llvm\./ { stop("an exported function that is called inside the module") }
{ print }

# The head of an exported function: `shape` says what is to be done at its end.
function enter() {
    name = $0
    sub(/^[^@]*@/, "", name)
    sub(/\(.*/, "", name)
    answer = $0
    sub(/ @.*/, "", answer)
    gsub(/^define |noundef |dso_local /, "", answer)
    exports++
    parameters = $0
    sub(/^[^(]*/, "", parameters)
    small = parameters ~ /[(,] ?i[0-9]+ %/ # a word of a struct: a number's is `noundef`
    if (processor == "armv7" && (small || parameters ~ / byval\(/)) stop("a struct as a parameter")
    if (processor == "aarch64" && small && split(parameters, each, " %") > 9) stop("a struct among more than 8 parameters")
    gsub(/ byval\([^)]*\)/, "")
    if (answer == "ptr") {
        shape = "pointer"
        if (processor != "aarch64") return
        shape = "sret"
        sub(/noundef ptr @/, "void @") && sub(/\(ptr noundef %a0/, "(ptr noundef sret(i8) %a0") || stop("no first pointer")
    } else if (answer ~ /^\{ i64, i(8|16|24|32|40|48|56|64) \}$/) {
        shape = "as it comes"
        if (processor != "armv7") return
        shape = "store"
        split("", loaded)
        sub(/\{ [^}]* \}/, "void") && sub(/\(/, "(ptr noundef sret(i8) %answer, ") || stop("no parameters")
    } else if (answer ~ /^i(8|16|24|32)$/ || (answer ~ /^i(40|48|56|64)$/ && processor != "armv7")) {
        shape = "as it comes"
    } else {
        stop("an answer of type " answer)
    }
}

function stop(why) {
    print "retarget: " (name == "" ? "" : name ": ") why ", which is not known for " processor > "/dev/stderr"
    failed = 1
    exit 1
}

END { if (!failed && exports == 0) stop("no exported function") }
