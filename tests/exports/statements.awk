# The declarations and definitions of an antt file without its comments, each on one line with single spaces.
{
    text = ""
    for (i = 1; i <= length($0); i++) {
        two = substr($0, i, 2)
        if (two == "{-") { deep++; i++; continue }
        if (deep && two == "-}") { deep--; i++; continue }
        if (deep) continue
        if (two == "--") break
        text = text substr($0, i, 1)
    }
    if (text ~ /^[^ ]/) { if (whole != "") print whole; whole = "" }
    gsub(/ +/, " ", text)
    sub(/ $/, "", text)
    whole = whole text
}
END { if (whole != "") print whole }
