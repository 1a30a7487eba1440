# Counts the wrong programs of each public contract of a crate: the files are its sources and behind them its edits. Prints 'COUNT FILE:LINE NAME'
# for each `pub fn` or `pub extern "C" fn` without a `requires`, a method too; of the files and functions in `inner` only for those that lib.rt hands on by `pub use`.
# An edit counts for a function if a text that it replaces stands in the function's body, or in a function, a constant or a static of the crate that the
# body names, directly or through others; a call of a method names all of its name, but for `len`, which slices have too. Comments and contracts are no part of a body. The layout is that of rt fmt.
FILENAME ~ /\.edit$/ {
    if (/^file: /) edited = substr($0, 7)
    if (/^old: /) { replaced[++edits] = substr($0, 6); place[edits] = edited; edit[edits] = FILENAME }
    next
}

FNR == 1 {
    module = FILENAME
    sub(/.*\//, "", module)
    sub(/\.rt$/, "", module)
    if (module == "main") module = "lib"
    here = ""
}
{ sub(/\/\/.*/, "") }

# The names that a module takes from elsewhere. A `use` may go over several lines, and name several paths in braces.
/^(pub(\(crate\))? )?use / { is_use = 1; paths = ""; is_handing_on = module == "lib" && /^pub use / }
is_use { paths = paths $0 }
is_use && /; *$/ {
    is_use = 0
    sub(/^.*use /, "", paths)
    sub(/; *$/, "", paths)
    take("", paths)
}

# The functions of an `impl` stand a step further in.
/^impl[ <].*\{$/ {
    type = $0
    sub(/.* for /, "", type)
    sub(/^impl(<[^>]*>)? */, "", type)
    sub(/[^A-Za-z0-9_].*/, "", type)
    in_impl = 1
}
/^\}/ { in_impl = 0 }

(in_impl && /^    (pub(\(crate\))? )?fn /) || /^(pub(\(crate\))? )?(extern "C" )?(fn|const|static) / {
    name = $0
    sub(/^ *(pub(\(crate\))? )?(extern "C" )?(fn|const|static) /, "", name)
    sub(/[^A-Za-z0-9_].*/, "", name)
    if (in_impl) { methods[name] = methods[name] " " module "::" type "::" name; name = type "::" name }
    here = module "::" name
    item[here] = 1
    is_body = /\{$/ || /^(pub(\(crate\))? )?(const|static) /
    if (/^ *pub (extern "C" )?fn /) {
        public[here] = FILENAME ":" FNR
        is_inner[here] = index(" " inner " ", " " FILENAME " ") || index(" " inner " ", " " FILENAME ":" name " ")
    }
}
/^ +requires / && !is_body { delete public[here] }
in_impl ? /^    (\) .*)?\{$/ : /^(\) .*)?\{$/ { is_body = 1 }
here != "" && is_body { file[++lines] = FILENAME; owner[lines] = here; text[lines] = $0 }
is_body && (in_impl ? /^    \}/ : /^\}/ || /^[^ ].*;$/) { here = ""; is_body = 0 }

# Notes the names that a list of paths takes, each with what stands before the list.
function take(before, list,   i, c, depth, part, name) {
    list = list ","
    for (i = 1; i <= length(list); i++) {
        c = substr(list, i, 1)
        if (c == "{") depth++
        if (c == "}") depth--
        if (c != "," || depth) { part = part c; continue }
        gsub(/^ +| +$/, "", part)
        if (part ~ /}$/) {
            take(before substr(part, 1, index(part, "{") - 1), substr(part, index(part, "{") + 1, length(part) - index(part, "{") - 1))
        } else if (part != "") {
            part = before part
            name = part
            sub(/.*( as |::)/, "", name)
            sub(/ as .*/, "", part)
            taken[module, name] = part
            if (is_handing_on) handed_on[part] = 1
        }
        part = ""
    }
}

# The function or constant of the crate that a path means in a module; nothing where it is of another crate, or no such thing.
function meant(module, path,   part, n, turns) {
    for (turns = 0; turns < 4; turns++) {
        n = split(path, part, "::")
        if (n > 2 && part[1] != "crate") return ""
        if (n > 1) { module = part[n - 1] == "crate" ? "lib" : part[n - 1]; path = part[n] }
        if ((module "::" path) in item) return module "::" path
        if (!((module, path) in taken)) return ""
        path = taken[module, path]
    }
    return ""
}

# Notes what a line of an item names: what it calls, and its constants.
function note(here, line,   module, path, before, other) {
    module = here
    sub(/::.*/, "", module)
    while (match(line, /[A-Za-z_][A-Za-z0-9_]*(::[A-Za-z_][A-Za-z0-9_]*)*/)) {
        path = substr(line, RSTART, RLENGTH)
        before = RSTART > 1 ? substr(line, RSTART - 1, 1) : ""
        line = substr(line, RSTART + RLENGTH)
        if (line !~ /^\(/ && path !~ /^(.*::)?[A-Z][A-Z0-9_]*$/) continue
        other = meant(module, path)
        if ((before == "." && path != "len") || path ~ /::/) { sub(/.*::/, "", path); other = other " " methods[path] }
        named[here] = named[here] " " other
    }
}

# Puts an item, and all that it names, among those reached.
function reach(here,   other, n, i) {
    if (here in reached) return
    reached[here] = 1
    n = split(named[here], other, " ")
    for (i = 1; i <= n; i++) reach(other[i])
}

function stands_at(i, text_of, where) {
    return index(text[i], text_of) && substr(file[i], length(file[i]) - length(where)) == "/" where
}

END {
    for (i = 1; i <= lines; i++) note(owner[i], text[i])
    for (e = 1; e <= edits; e++)
        for (i = 1; i <= lines; i++)
            if (stands_at(i, replaced[e], place[e])) touched[e] = owner[i]
    for (here in public) {
        if (is_inner[here] && !(here in handed_on)) continue
        split("", reached)
        split("", counting)
        reach(here)
        count = 0
        for (e = 1; e <= edits; e++)
            if (touched[e] in reached && !(edit[e] in counting)) { counting[edit[e]] = 1; count++ }
        name = here
        sub(/.*::/, "", name)
        print count, public[here], name
    }
}
