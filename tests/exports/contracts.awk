# For each `pub fn` of a Rattle source file: its name and its contract, the clauses one behind the other as they stand.
/^ *(#\[unsafe\(no_mangle\)\] *)?pub (extern "C" )?fn / {
    name = $0
    sub(/.*fn /, "", name)
    sub(/[^A-Za-z0-9_].*/, "", name)
    contract = ""
}
name != "" && /^ *(requires|ensures)/ {
    clause = $0
    sub(/^ */, "", clause)
    sub(/^ensures \{ */, "", clause)
    sub(/ *\}$/, "", clause)
    contract = contract (contract == "" ? "" : "; ") clause
}
name != "" && (/^ *\{$/ || /^ *\{ .*\}$/) {
    print name, contract
    name = ""
}
