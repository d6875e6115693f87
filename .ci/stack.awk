# The stack that each exported function takes, from `objdump -dr --no-show-raw-insn` of the library.
#
# Prints a line for each kurdavel_ function: its name and the most bytes that lie below its arguments on any path, its
# return address included. A frame is all that the function pushes and subtracts, taken together, and below it the
# deepest of its calls, or the red zone where it may be in use. A call of memcpy or memset counts with its return
# address; what they take themselves is the firmware's own. Whatever would make the sum wrong ends the program with status 1: a stack
# pointer that is moved in another way, a call through a pointer, a recursion, a call of an unknown function.

function fail(why) {
    print "stack: " name ": " why >"/dev/stderr"
    failed = 1
    exit 1
}

# The number that begins with 0x.
function hex(text,    value, i) {
    value = 0
    for (i = 3; i <= length(text); i++) value = value * 16 + index("0123456789abcdef", substr(text, i, 1)) - 1
    return value
}

# What `sub $imm,%rsp` or `add $imm,%rsp` takes of the stack: nothing where it gives some back. A number of sixteen
# digits is below 0.
function taken(instruction,    number, negative) {
    match(instruction, /0x[0-9a-f]+/)
    number = substr(instruction, RSTART, RLENGTH)
    negative = length(number) == 18
    if ((instruction ~ /^sub/) == negative) return 0
    return negative ? 4294967296 - hex("0x" substr(number, 11)) : hex(number)
}

function note_target(target) {
    sub(/^\.text\./, "", target)
    sub(/[-+]0x[0-9a-f]+$/, "", target)
    calls[name] = calls[name] "\n" target
}

function depth(f,    targets, count, i, below, deepest) {
    if (f == "memcpy" || f == "memset") return 8
    if (!(f in frame)) { name = f; fail("is called and not known") }
    if (f in open) { name = f; fail("calls itself") }
    open[f] = 1
    deepest = red_zone[f] + 0
    count = split(calls[f], targets, "\n")
    for (i = 2; i <= count; i++) {
        below = depth(targets[i])
        if (below > deepest) deepest = below
    }
    delete open[f]
    return 8 + frame[f] + deepest
}

/^[0-9a-f]+ <.*>:$/ {
    if (leaves == 2) fail("a call without a name")
    name = $2
    gsub(/^<|>:$/, "", name)
    frame[name] = 0
    leaves = 0
    next
}

# The relocation of the instruction before it: the target of a call, or of a jump to another function.
/R_X86_64_/ {
    if (leaves) { note_target($3); leaves = 0 }
    next
}

/^ +[0-9a-f]+:/ {
    if (leaves == 2) fail("a call without a name")
    instruction = $0
    sub(/^ +[0-9a-f]+:[ \t]+/, "", instruction)
    operation = instruction
    sub(/[ \t].*/, "", operation)
    leaves = operation == "call" ? 2 : operation ~ /^j/ ? 1 : 0
    if (instruction ~ /^call +\*/) fail("a call through a pointer")
    if (operation == "push") frame[name] += 8
    else if (instruction ~ /^(sub|add) +\$0x[0-9a-f]+,%rsp$/) frame[name] += taken(instruction)
    else if (instruction ~ /,%rsp$/ && instruction !~ /^(cmp|test) /) {
        fail("moves the stack pointer by `" instruction "`")
    } else if (operation ~ /^(leave|enter|xchg)/ && instruction ~ /leave|enter|%rsp/) {
        fail("moves the stack pointer by `" instruction "`")
    }
    if (instruction ~ /-0x[0-9a-f]+\(%rsp/ || instruction ~ /%rsp,%r/) red_zone[name] = 128
}

END {
    if (failed) exit 1
    for (f in frame) if (f ~ /^kurdavel_/) print f, depth(f)
}
