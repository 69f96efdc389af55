# The stack that a call's functions reserve in all, the deepest way down: from the bounds (CALL OCTETS), what the compiler says of each frame, and the relocations of the object, which
# name the calls. Prints each call of the object with its octets, and ends with 1 if one is above its bound.
#   what   what is said before them
#   back   what a call itself puts on the stack
#   red    what a function that calls none may use below it
NF == 2 && $1 ~ /^[a-z][a-z0-9_]*$/ && $2 ~ /^[0-9]+$/ { bound[$1] = $2; order[++calls] = $1 }
/ stack bytes in function '/ { split($0, part, "'"); frame[part[2]] = $3 }
/^Relocation section / { split($0, part, "'"); from = part[2]; if (!sub(/^\.rela?\.text\./, "", from)) from = "" }
from != "" { for (i = 4; i <= NF; i++) { to = $i; sub(/^\.text\./, "", to); called[from, to] = 1 } }

# A way with more steps than there are functions comes back to one, and has no end.
function depth(name, steps,    other, most, below) {
    if (steps > 99) { print what " " name " calls itself" > "/dev/stderr"; exit 1 }
    most = red
    for (other in frame)
        if ((name, other) in called && (below = depth(other, steps + 1)) > most) most = below
    return frame[name] + back + most
}

END {
    for (i = 1; i <= calls; i++)
        if (order[i] in frame) {
            took = depth(order[i], 0)
            high = took > bound[order[i]]
            what = what " " order[i] " " took (high ? " OF " bound[order[i]] : "")
            wrong += high; seen++
        }
    print what
    exit wrong > 0 || !seen
}
