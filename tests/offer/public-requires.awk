# Prints FILE:LINE for each 'requires' on a public function that is not in `inner`, as FILE:NAME. A signature runs from 'pub fn' or
# 'pub extern "C" fn' to the brace that opens its body; each contract clause before has braces of its own.
FNR == 1 { open = 0 }
{ sub(/\/\/.*/, "") }
/^[ \t]*pub (extern "C" )?fn / {
    name = $0
    sub(/^[ \t]*pub (extern "C" )?fn /, "", name)
    sub(/[^A-Za-z0-9_].*/, "", name)
    open = !index(" " inner " ", " " FILENAME ":" name " ")
    clause = 0
    depth = 0
}
open {
    gsub(/[{}]/, " & ")
    words = split($0, word, /[ \t]+/)
    for (i = 1; i <= words && open; i++) {
        if (depth == 0 && word[i] ~ /^(ghost|requires|ensures)$/) clause = 1
        if (depth == 0 && word[i] == "requires") print FILENAME ":" FNR
        if (word[i] == "{" && !clause) open = 0
        if (word[i] == "{") depth++
        if (word[i] == "}" && --depth == 0) clause = 0
    }
}
