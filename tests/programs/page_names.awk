# The crates among the names of a text, each with a space behind it.
function crates_in(text,   found, name) {
    found = ""
    while (match(text, /`[a-z_]+`/)) {
        name = substr(text, RSTART + 1, RLENGTH - 2)
        text = substr(text, RSTART + RLENGTH)
        if (name in is_crate) found = found name " "
    }
    return found
}
# Whether one of these crates defines the word.
function has(crates, word,   list, count, i) {
    count = split(crates, list, " ")
    for (i = 1; i <= count; i++) if ((list[i], word) in at) return 1
    return 0
}
function define(crate, word) { at[crate, word] = 1; anywhere[word] = 1 }
# What a line of the code defines: functions, types, constants, clauses, and the variants of an enum.
function define_code(crate, line,   words, count, i) {
    if (line ~ /^ +[A-Z][A-Za-z]*[,({]/ || line ~ /^ +[A-Z][A-Za-z]* {/) { split(line, words, /[^A-Za-z]+/); define(crate, words[2]) }
    count = split(line, words, /[^A-Za-z0-9_]+/)
    for (i = 1; i < count; i++) if (words[i] ~ /^(fn|struct|enum|trait|type|const|ghost|ensures|requires)$/) define(crate, words[i + 1])
}
# What a line of the definitions defines: what stands before its colon.
function define_words(crate, line,   words, count, i) {
    if (line ~ /^ *--/) return
    sub(/[:=].*/, "", line)
    count = split(line, words, /[^A-Za-z0-9_]+/)
    for (i = 1; i <= count; i++) define(crate, words[i])
}
# Judges each word between backticks.
function judge(text, crates,   quoted, words, count, i) {
    while (match(text, /`[^`]+`/)) {
        quoted = substr(text, RSTART + 1, RLENGTH - 2)
        text = substr(text, RSTART + RLENGTH)
        count = split(quoted, words, /[^A-Za-z0-9_]+/)
        for (i = 1; i <= count; i++) {
            if (words[i] !~ /^[A-Za-z_]/ || words[i] in is_crate) continue
            looked++
            if (crates == "" ? !(words[i] in anywhere) : !has(crates, words[i])) { print FILENAME ":" FNR ": " words[i]; gone++ }
        }
    }
}
# Judges the names in a crate's README: the crate defines them, or another one that the README names.
function judge_readme(crate, text, crates,   quoted, words, count, i) {
    while (match(text, /`[^`]+`/)) {
        quoted = substr(text, RSTART + 1, RLENGTH - 2)
        text = substr(text, RSTART + RLENGTH)
        if (quoted !~ /^[A-Za-z_:]+$/) continue
        count = split(quoted, words, "::")
        for (i = 1; i <= count; i++) {
            if (words[i] in is_crate || words[i] in plain) continue
            read++
            if (!has(crates, words[i])) { print "crates/" crate "/README.md: " words[i]; gone++ }
        }
    }
}
BEGIN {
    # Words of READMEs that no crate defines: folders, a crate of the kit, the calls of tests/refused_calls.sh.
    count = split("src args clap vec block two_stages folds", words, " ")
    for (i = 1; i <= count; i++) plain[words[i]] = 1
}
FILENAME ~ /^crates/ {
    split(FILENAME, path, "/")
    if (path[3] == "README.md") { readme[path[2]] = readme[path[2]] $0 " "; next }
    is_crate[path[2]] = 1
    if (FNR == 1) { file = path[split(FILENAME, path, "/")]; sub(/\..*/, "", file); define(path[2], file) }
    if (path[3] == "src") define_code(path[2], $0)
    else define_words(path[2], $0)
    next
}
/^#/ { heading = crates_in($0) }
!/^\|/ { row = ""; kind = "" }
/^\|/ {
    count = split($0, cells, "|")
    last = cells[count - 1]
    if (last ~ /^ (Contract|Law)/) kind = "claims"
    else if (cells[2] ~ /^ (Words|Clause)/) kind = "definitions"
    if (kind == "definitions") judge(cells[2], "")
    if (kind != "claims") next
    if (count == 5 && crates_in(cells[2]) != "") row = crates_in(cells[2])
    judge(last, crates_in(last) != "" ? crates_in(last) : row != "" ? row : heading)
}
END {
    for (name in readme) judge_readme(name, readme[name], name " " crates_in(readme[name]))
    if (looked < 570 || read < 600) { print looked " and " read " names are too few"; exit 1 }
    print looked + 0 " names of docs/proof and " read + 0 " of READMEs, " gone + 0 " of them gone"
    exit gone > 0
}
