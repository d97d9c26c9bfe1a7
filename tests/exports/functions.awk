# For each `pub fn` of a Rattle source file: crate, path below proofs/ (a method's is its type's, whatever the module), how many
# `requires` and how many `ensures` it has, and PLACE:NAME of each parameter that is lent as `&mut`, the first parameter's place being 0.
BEGIN { prefix = module == "" ? "" : module "." }
/^impl / { type = $2; sub(/[<{].*/, "", type) }
/^}/ { type = "" }
/^ *(#\[unsafe\(no_mangle\)\] *)?pub (extern "C" )?fn / {
    name = $0
    sub(/.*fn /, "", name)
    sub(/[^A-Za-z0-9_].*/, "", name)
    reading = 1
    asks = says = 0
    signature = ""
}
reading && !asks && !says { signature = signature " " $0 }
reading && /^ *requires/ { asks++ }
reading && /^ *ensures/ { says++ }
reading && (/^ *\{$/ || /^ *\{ .*\}$/ || /\) (-> .* )?\{/ ) {
    print crate, (type == "" ? prefix : type ".") name, asks, says lent(signature)
    reading = 0
}

# the parameters of a signature stand between its first ( and the ) that closes it, with a comma after each but the last
function lent(s,    i, c, depth, place, one, found) {
    sub(/^.*fn [A-Za-z0-9_]*(<[^(]*>)?\(/, "", s)
    for (i = 1; i <= length(s); i++) {
        c = substr(s, i, 1)
        if (depth == 0 && (c == "," || c == ")")) {
            found = found borrowed(one, place++)
            one = ""
            if (c == ")") return found
            continue
        }
        if (c ~ /[(\[]/) depth++
        if (c ~ /[)\]]/) depth--
        one = one c
    }
    return found
}

function borrowed(one, place) {
    gsub(/^ +| +$/, "", one)
    if (one ~ /^&('[a-z]+ )?mut self$/) return " " place ":self"
    if (one !~ /^[a-z0-9_]+: &('[a-z]+ )?mut /) return ""
    sub(/:.*/, "", one)
    return " " place ":" one
}
