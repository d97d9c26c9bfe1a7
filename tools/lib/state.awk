# The fields of a line S of `calls` (trial/README.md), by their words, for told.awk, follow.awk and stored.awk.

# The number of the field behind a word.
function behind(word,    i) {
    for (i = 2; i < NF; i++) if ($i == word) return i + 1
    return NF + 1
}
