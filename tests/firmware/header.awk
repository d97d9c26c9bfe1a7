# What firmware/board.h has to say, from the proved sources: awk -f header.awk SOURCES prints a C file that compiles only beside a header with
# the same structs, field by field, the same constants and the same functions. It says on standard error what it cannot find.

function refuse(why) {
    print "header: " why >"/dev/stderr"
    refused = 1
    exit 1
}

function c_name(type) { return "board_" tolower(type) }

# ---- structs, with the layout that C gives them

BEGIN {
    n = split("u8 uint8_t 1 i8 int8_t 1 u16 uint16_t 2 u32 uint32_t 4 i32 int32_t 4 i64 int64_t 8 usize uint64_t 8 f64 double 8", word, " ")
    for (i = 1; i <= n; i += 3) {
        plain[word[i]] = word[i + 1]
        size[word[i]] = align[word[i]] = word[i + 2]
    }
}

FNR == 1 { as_c = inside = 0; part = "" }

/^#\[repr\(C\)\]$/ { as_c = 1; next }

/^pub struct [A-Za-z]+ {$/ && as_c {
    inside = 1
    struct = $3
    order[++structs] = struct
}

!/^#\[/ { as_c = 0 }

inside && /^    pub / {
    text = $0
    gsub(/^    pub |,$/, "", text)
    split(text, two, ": ")
    field[struct, ++fields[struct]] = two[1]
    type[struct, fields[struct]] = two[2]
}

/^}/ { inside = 0 }

function element(t) { # of [T; N], or T itself
    gsub(/^\[|; [0-9]+\]$/, "", t)
    return t
}

function count(t) { # N of [T; N], or 0
    if (t !~ /^\[/) return 0
    gsub(/^.*; |\]$/, "", t)
    return t + 0
}

function measure(s, i, t, at, each, most) {
    if (s in size) return
    if (!(s in fields)) refuse("there is no struct " s " in the layout of C")
    at = 0
    most = 1
    for (i = 1; i <= fields[s]; i++) {
        t = element(type[s, i])
        measure(t)
        at = int((at + align[t] - 1) / align[t]) * align[t]
        offset[s, i] = at
        each = count(type[s, i])
        at += size[t] * (each ? each : 1)
        if (align[t] > most) most = align[t]
    }
    align[s] = most
    size[s] = int((at + most - 1) / most) * most
}

function in_c(t) {
    sub(/^[a-z_]+::/, "", t)
    return t in plain ? plain[t] : c_name(t)
}

function same(what, n) { print "_Static_assert(" what " == " n ", \"" what " is not " n "\");" }

# all of a type as 0: a header with a field more or fewer does not take it
function none(t, i, all) {
    if (t in plain) return "0"
    if (count(t)) return "{" none(element(t)) "}"
    for (i = 1; i <= fields[t]; i++) all = all (i > 1 ? ", " : "") none(type[t, i])
    return "{" all "}"
}

function show_struct(s, i, t, c, at) {
    measure(s)
    c = c_name(s)
    same("sizeof(" c ")", size[s])
    same("_Alignof(" c ")", align[s])
    for (i = 1; i <= fields[s]; i++) {
        t = type[s, i]
        at = "((" c " *)0)->" field[s, i]
        same("offsetof(" c ", " field[s, i] ")", offset[s, i])
        same("_Generic(" at (count(t) ? "[0]" : "") ", " in_c(element(t)) ": 1, default: 0)", 1)
        if (count(t)) same("sizeof(" at ") / sizeof(" at "[0])", count(t))
    }
    print "const " c " all_of_" c " = " none(s) ";"
}

# ---- constants: those of jobs and answers by name, the others where the sources ask for them

/^(pub\(crate\) )?fn [a-z_]+\(/ {
    part = $0
    sub(/^(pub\(crate\) )?fn /, "", part)
    sub(/\(.*$/, "", part)
}

function constant(name, n) {
    if ((name in value) && value[name] != n) refuse(name " is " value[name] " and " n)
    value[name] = n
}

FILENAME ~ /port\/src/ && (part == "code_of" || part == "kind_of") && /^        (Job|Answer)::[A-Za-z]+(\(.*\))? => [0-9]+,$/ {
    text = $1
    gsub(/^[A-Za-z]+::|\(.*$/, "", text)
    number = $NF
    sub(/,$/, "", number)
    constant("BOARD_" toupper(text), number)
}

function length_asked(name, refusal) { # if NAME.len() < 32 {
    constant(name, $(NF - 1))
    awaited = refusal
}

FILENAME ~ /port\/src/ && /if reply\.len\(\) < [0-9]+ {$/ { length_asked("BOARD_REPLY", "BOARD_SHORT_REPLY"); next }
FILENAME ~ /port\/src/ && /if store\.len\(\) != [0-9]+ {$/ { length_asked("BOARD_STORE", "BOARD_WRONG_STORE"); next }
FILENAME ~ /port\/src/ && /if table\.len\(\) != [0-9]+ {$/ { length_asked("BOARD_TABLE", "BOARD_WRONG_TABLE"); next }
FILENAME ~ /port\/src/ && /if !state\.is_known\(\)/ { awaited = "BOARD_WRONG_STATE"; next }
FILENAME ~ /record\/src\/listing/ && /if text\.len\(\) < [0-9]+ {$/ { length_asked("BOARD_TEXT", ""); named = "BOARD_SHORT_TEXT count"; next }
FILENAME ~ /record\/src\/listing/ && /if !readable\(/ { named = "BOARD_UNREADABLE count"; next }
FILENAME ~ /sheet\/src\/chains/ && /steps\.len\(\) != n/ { named = "BOARD_WRONG_CHAIN sheet"; next }
FILENAME ~ /count\/src\/lib/ && /^const HALF: u32 = [0-9_]+;$/ { text = $NF; gsub(/[;_]/, "", text); constant("BOARD_ZERO", text) }

# a refusal by its name, whose number stands once in its crate: return Err(Refusal::Text);  Refusal::Text => 106,  Fault::Refused => b'G',
named != "" && /Err\(Refusal::[A-Za-z:()]+\)/ {
    text = $0
    gsub(/^.*Err\(Refusal::(Program\()?|\)+;$/, "", text)
    split(named, two, " ")
    meant[two[1]] = two[2] " " text
    named = ""
}

FILENAME ~ /(count|sheet)\/src\/(refusals|lib)/ && /^            (Refusal::[A-Za-z]+ => [0-9]+|Fault::[A-Za-z]+ => b'.'),$/ {
    text = $1
    sub(/^Refusal::/, "", text)
    number = $3
    gsub(/^b|,$/, "", number)
    told[(FILENAME ~ /sheet/ ? "sheet " : "count ") text] = number
    next
}

awaited != "" && /[^0-9][0-9]+[^0-9]*$/ {
    text = $0
    sub(/[^0-9]*$/, "", text)
    sub(/^.*[^0-9]/, "", text)
    constant(awaited, text)
    awaited = ""
}

# ---- functions

/^pub extern "C" fn / { declared = ""; declaring = 1 }

declaring && /^({|    (requires|ensures) )/ {
    declaring = 0
    functions++
    line[functions] = declared
}

declaring {
    text = $0
    gsub(/^ +/, "", text)
    declared = declared (declared ~ /\($/ || declared == "" ? "" : " ") text
}

function parameter(t) {
    if (t ~ /^&\[/) return "const " in_c(pointee(t)) " *, uint64_t"
    if (t ~ /^&mut \[/) return in_c(pointee(t)) " *, uint64_t"
    if (t ~ /^&mut /) return in_c(pointee(t)) " *"
    return in_c(t)
}

function pointee(t) {
    gsub(/^&(mut )?\[?|\]$/, "", t)
    return t
}

function show_function(text, name, result, given, n, list, i, two) {
    sub(/^pub extern "C" fn /, "", text)
    name = result = given = text
    sub(/\(.*$/, "", name)
    sub(/^[^(]*\(/, "", given)
    sub(/,? ?\)[^)]*$/, "", given)
    if (!sub(/^.*\) -> /, "", result)) result = ""
    n = split(given, list, /, /)
    given = ""
    for (i = 1; i <= n; i++) {
        split(list[i], two, ": ")
        given = given (i > 1 ? ", " : "") parameter(two[2])
    }
    print (result == "" ? "void" : in_c(result)) " " name "(" (given == "" ? "void" : given) ");"
}

END {
    if (refused) exit 1
    for (name in meant) {
        if (!(meant[name] in told)) refuse("there is no number of the refusal " meant[name])
        constant(name, told[meant[name]])
    }
    print "#include <stddef.h>"
    print "#include \"board.h\""
    for (i = 1; i <= structs; i++) show_struct(order[i])
    for (name in value) same(name, value[name])
    for (i = 1; i <= functions; i++) show_function(line[i])
}
