# The stack that each function of the C interface takes at most, by the frames of all functions and the calls between them. Input: lp586x.su
# (name, bytes, kind of frame), then what objdump -dr says of the library. Prints a line for each exported function, with its name and bytes.
# Refuses what this cannot answer: a frame whose size is not known, a call by pointer, recursion, and calls to others than the C library's
# memory functions and division, whose own stack is not counted.
BEGIN { FS = "\t" }

function refuse(why) {
    print "bench/depth.awk: " why >"/dev/stderr"
    refused = 1
    exit 1
}

# The most of a function and all that it calls.
function depth(name,    list, count, i, most, below) {
    if (name in known)
        return known[name]
    if (!(name in frame)) {
        if (name !~ /^(memcpy|memset|memmove|__aeabi_(memcpy|memset|memclr|memmove)[48]?|__aeabi_uldivmod)$/)
            refuse("a call to " name)
        return 0
    }
    if (name in open)
        refuse("recursion of " name)
    open[name] = 1
    count = split(calls[name], list, "\n")
    for (i = 1; i <= count; i++)
        if (list[i] != "" && (below = depth(list[i])) > most)
            most = below
    delete open[name]
    return known[name] = frame[name] + most
}

FNR == NR {
    if ($3 != "static")
        refuse("the frame of " $1 " is " $3)
    frame[$1] = $2
    next
}
/^[0-9a-f]+ <.*>:$/ {
    function_name = $0
    sub(/^[0-9a-f]+ </, "", function_name)
    sub(/>:$/, "", function_name)
    next
}
/R_(ARM_THM_(CALL|JUMP24|JUMP19)|ARM_(CALL|JUMP24)|AARCH64_(CALL26|JUMP26))\t/ {
    callee = $NF
    sub(/[-+]0x[0-9a-f]+$/, "", callee)
    sub(/^\.text\./, "", callee)
    calls[function_name] = calls[function_name] "\n" callee
    next
}
/\tblr\t/ || /\tbr\t/ || /\tblx\t(r[0-9]+|ip|lr|sl|fp)/ || (/\tbx\t/ && !/\tbx\tlr/) { refuse("a call by pointer in " function_name) }

END {
    if (!refused)
        for (name in frame)
            if (name ~ /^lp586x_/)
                print name, depth(name) | "sort"
    exit refused
}
