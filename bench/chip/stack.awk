# The deepest stack below functions of an image: awk -f stack.awk -v of='F G' -v deep='F=10' FILES.su IMAGE.dis, where IMAGE.dis is what
# objdump -d prints. For each it prints the bytes, its own frame included and its caller's not, and the calls that lead there.
# A frame is what the compiler says (.su); for a function in assembly, what it pushes. A call adds the frame of the one that calls; a
# branch to another function is made when the own frame is given back. A function that calls itself is one named in `deep`, with how
# many of it can be open at once. What could hide a call or a frame is refused: a call through a register, a stack that grows as it runs.

function refuse(why) {
    print "stack: " why >"/dev/stderr"
    refused = 1
    exit 1
}

# a function's name in one word; it may hold < and > itself
function word(text) {
    gsub(/ /, "_", text)
    return text
}

# FILE:FUNCTION or FILE:LINE:COLUMN:FUNCTION, the bytes, and how they are known
FILENAME ~ /\.su$/ {
    split($0, part, "\t")
    name = word(part[1])
    if (!sub(/^.*:[0-9]+:[0-9]+:/, "", name)) sub(/^[^:]*:/, "", name)
    if (part[3] != "static") unclear[name] = "takes stack as it runs"
    frame[name] = part[2]
    told[name] = 1
    next
}

/^[0-9a-f]+ <.*>:$/ {
    name = $0
    gsub(/^[0-9a-f]+ <|>:$/, "", name)
    name = word(name)
    known[name] = 1
    next
}

function registers(list, n, part, parts, i, ends) { # {r4, r6-r8, lr}
    gsub(/^[^{]*\{|\}.*$/, "", list)
    parts = split(list, part, ", ")
    for (i = 1; i <= parts; i++) n += split(part[i], ends, "-") == 2 ? substr(ends[2], 2) - substr(ends[1], 2) + 1 : 1
    return n
}

function pushes(op, with, n) {
    if (op ~ /^push/ || op ~ /^stmdb/ && with ~ /^sp!/) return 4 * registers(with)
    if (op ~ /^strd?(\.w)?$/ && with ~ /\[sp, #-[0-9]+\]!/) {
        n = with
        sub(/^.*\[sp, #-/, "", n)
        return n + 0
    }
    if (op ~ /^sub/ && with ~ /^sp, /) {
        if (with !~ /#[0-9]+/) unclear[name] = "takes stack that cannot be read"
        n = with
        sub(/^.*#/, "", n)
        return n + 0
    }
    return 0
}

# a jump to where a register or a word in memory says; a return is none
function unread(op, with) {
    if (op ~ /^blx/) return 1
    if (op ~ /^bx/) return with !~ /^lr/
    if (op !~ /^(mov|ldr|add)/ || with !~ /^pc/) return 0
    return with !~ /^pc, (lr|\[sp\], #[0-9])/
}

{
    fields = split($0, field, "\t")
    if (fields < 3) next
    op = field[3]
    with = field[4]
    if (!(name in told)) frame[name] += pushes(op, with)
    if (unread(op, with)) unclear[name] = "may call what cannot be read: " op " " with
    if (op !~ /^b/ || with !~ /<.*>/) next
    to = with
    sub(/^[^<]*</, "", to)
    sub(/>[^>]*$/, "", to)
    sub(/\+0x[0-9a-f]+$/, "", to)
    to = word(to)
    if (op ~ /^bl(eq|ne|cs|cc|hs|lo|mi|pl|vs|vc|hi|ls|ge|lt|gt|le)?$/) calls[name] = calls[name] " " to
    else if (to != name) leads[name] = leads[name] " " to
}

function depth(f, n, list, i, below, inner) {
    if (f in found) return found[f]
    if (!(f in known)) refuse("there is no function " f)
    if (f in unclear) refuse(f " " unclear[f])
    if (busy[f]) refuse(f " calls itself by others")
    busy[f] = 1
    via[f] = ""
    n = split(calls[f], list, " ")
    for (i = 1; i <= n; i++) {
        if (list[i] == f) {
            if (!(f in times)) refuse(f " calls itself")
            continue
        }
        inner = depth(list[i])
        if (inner > below) {
            below = inner
            via[f] = list[i]
        }
    }
    below += frame[f] * (f in times ? times[f] : 1)
    n = split(leads[f], list, " ")
    for (i = 1; i <= n; i++) {
        inner = depth(list[i])
        if (inner > below) {
            below = inner
            via[f] = list[i]
        }
    }
    busy[f] = 0
    found[f] = below
    return below
}

END {
    if (refused) exit 1
    n = split(deep, pairs, " ")
    for (i = 1; i <= n; i++) {
        split(pairs[i], pair, "=")
        times[pair[1]] = pair[2]
    }
    n = split(of, asked, " ")
    for (i = 1; i <= n; i++) {
        printf "%d %s", depth(asked[i]), asked[i]
        for (f = via[asked[i]]; f != ""; f = via[f]) printf " > %s", f
        print ""
    }
}
