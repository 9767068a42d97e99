# The citations of one page: see bin/check-docs, which hands in what there is.

function load(name, set,    line) { while ((getline line < (work "/" name)) > 0) set[line] = 1 }

function complain(what) { printf "%s:%d: %s\n", page, FNR, what; wrong = 1 }

# a path, with `*` for any part of a name
function found(path,    known, pattern) {
    if (path in paths) return 1
    if (path !~ /[*]/) return 0
    pattern = path
    gsub(/[.]/, "[.]", pattern)
    gsub(/[*]/, "[^/]*", pattern)
    for (known in paths) if (known ~ ("^" pattern "$")) return 1
    return 0
}

# The whole path of what starts in one of these folders, or "-"; an edit is cited without its suffix.
function place(path, bases,    k, count, base) {
    sub(/\/$/, "", path)
    count = split(bases, base, " ")
    for (k = 1; k <= count; k++) {
        sub(/^\.\//, "", base[k])
        if (found(base[k] path)) return base[k] path
        if (found(base[k] path ".edit")) return base[k] path
    }
    return "-"
}

# A path may start beside the page, at the root, in crates/, or in any crate (`specs/`).
function cite_path(path,    at) {
    checked++
    at = place(path, own " ./ crates/ crates/*/")
    if (at == "-") { complain("no such file or folder: " path); return }
    if (!(at in folders)) sub(/\/?[^\/]*$/, "", at)
    near = near " " (at == "" ? "." : at) "/"
}

# `Table.antt` stands in a folder that was cited before it in the same cell or paragraph; alone, it stands somewhere
function cite_file(name,    known) {
    checked++
    if (place(name, near) != "-") return
    if (near == "") for (known in paths) if (known ~ ("(^|/)" name "$")) return
    complain("no such file" (near == "" ? "" : " in" near) ": " name)
}

# `name`, `Type.part`, `module::name`; what the kit has is not checked
function cite_name(name,    module) {
    checked++
    if (name in names) { if (name ~ /^[^.]+\.[^.]+$/) { owner = name; sub(/\..*/, "", owner) } return }
    if (place(name, near) != "-") return
    module = name
    if (sub(/::.*/, "", module) && module in kit) return
    complain("no such name: " name)
}

# `.part` of that type, or of any
function cite_part(name, type) {
    checked++
    if (!((type name) in names)) complain("no such part: " type name)
}

# Words that are parted by blanks: paths and, where names are checked, what stands first, what is opened by a bracket, and
# parts; the rest are arguments.
function cite_words(span,    word, count, k, opens) {
    count = split(span, word, " ")
    for (k = 1; k <= count; k++) {
        if (word[k] ~ /\// && is_path(word[k])) { cite_path(word[k]); continue }
        if (!names_too) continue
        opens = (k == 1 || word[k] ~ /^\(/)
        gsub(/[()]/, "", word[k])
        if (k == 1 && word[k] ~ /^(rt|cargo)$/) return
        if (!is_name(word[k])) continue
        if (word[k] ~ /^\./) cite_part(word[k], "")
        else if (opens) cite_name(word[k])
    }
}

function is_path(span) { return span ~ /^[A-Za-z0-9_.*-]+(\/[A-Za-z0-9_.*-]+)*\/?$/ && span !~ /^target\// }
# a single letter is a variable
function is_name(span) { return span ~ /^\.?[A-Za-z][A-Za-z0-9_'-]+((\.|::)[A-Za-z][A-Za-z0-9_'-]*)*$/ }

function cite(span) {
    if (span ~ / /) { cite_words(span); return }
    if (span ~ /\//) { if (is_path(span)) cite_path(span); return }
    if (span ~ /^[A-Za-z0-9_-]+\.(antt|rt|rs|txt|md|sh|edit)$/) { cite_file(span); return }
    if (!names_too || !is_name(span)) return
    if (span ~ /^\./) cite_part(span, owner)
    else cite_name(span)
}

# what is said of each count: the number before these words
function count_is(words, number,    rest) {
    if (!match($0, "[0-9]+ " words)) return
    checked++
    rest = substr($0, RSTART)
    sub(/ .*/, "", rest)
    if (rest != number) complain(rest " " words ", and there are " number)
}

BEGIN {
    load("paths", paths); load("folders", folders); load("names", names); load("kit", kit)
    own = page
    sub(/[^\/]*$/, "", own)
    own = own == "" ? "./" : own
}

/^[ \t]*$/ { near = owner = span = ""; inside = 0; next }
/^ *- / { near = owner = "" }

# a command to type
/^    / && !inside {
    count = split($0, word, " ")
    for (k = 1; k <= count; k++) if (word[k] ~ /^(bin|bench|examples|crates|docs)\// && is_path(word[k])) cite_path(word[k])
    next
}

{
    rest = $0
    while (match(rest, /\]\([^)#:]+\)/)) {
        cite_path(substr(rest, RSTART + 2, RLENGTH - 3))
        rest = substr(rest, RSTART + RLENGTH)
    }
    for (k = 1; k <= length($0); k++) {
        letter = substr($0, k, 1)
        if (letter == "`") { if (inside) cite(span); inside = !inside; span = "" }
        else if (inside) span = span letter
        else if (letter == "|") near = owner = ""
    }
    if (inside) span = span " "
    count_is("crates proved", crates)
    count_is("must-fail edits", edits)
    count_is("programs run", programs)
}

END {
    if (!wrong) printf "%s: %d citations\n", page, checked
    exit wrong
}
