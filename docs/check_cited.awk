# For docs/check: what pages cite. Reads what check_names.awk printed, the files of the repository, crates.txt, and the pages twice;
# prints each name, clause and path in code font that isn't there. Words of small letters, which may be of a plan, a report or the
# language, go to the file `words` with their place, and so do types that are nobody's here: check looks whether they stand anywhere.

pass == "names" {
    split($0, part, "\t")
    if (part[1] == "says") {
        says[part[3]] = says[part[3]] " " part[2]
        next
    }
    at[part[2]] = at[part[2]] " " part[4]
    kind[part[2], part[1]] = 1
    if (part[3] != "") member[part[3], part[2]] = 1
    next
}

# A path is cited by its end: from any of its folders on, with its ending or without.
pass == "files" {
    count = split($0, part, "/")
    for (i = 3; i <= count; i++) {
        sub(/\.[a-z]+$/, "", part[i])
        inside[part[2], part[i]] = 1
    }
    path = "/" $0
    while (path != "") {
        sub(/^\//, "", path)
        there[path] = 1
        bare = path
        if (sub(/\.[a-z]+$/, "", bare)) there[bare] = 1
        rest = path
        while (sub(/\/[^\/]*$/, "", rest) && !(rest in there)) there[rest] = 1
        if (!sub(/^[^\/]*/, "", path)) break
    }
    next
}

pass == "crates" {
    if (match($0, /^[a-z][a-z_0-9]*/)) crate[substr($0, 1, RLENGTH)] = 1
    next
}

# The headings of pages, as links name them.
pass == "heads" {
    if (FNR == 1) fenced = 0
    if (/^```/) fenced = !fenced
    if (!fenced && sub(/^#+ /, "")) {
        title = tolower($0)
        gsub(/[^a-z0-9 _-]/, "", title)
        gsub(/ /, "-", title)
        anchor[FILENAME, title] = 1
    }
    next
}

FNR == 1 { fenced = 0; section = ""; page = FILENAME; sub(/^.*\//, "", page) }
/^```/ { fenced = !fenced; next }
fenced { next }
/^## / { chapter = $0 }
/^#/ { section = chapter (/^### / ? $0 : "") }
{ read_line() }

function wrong(what) {
    print FILENAME ":" FNR ": " what
}

function read_line(    i, row) {
    count_cut = split($0, cut, "`")
    row = /^\|/ ? row_crate() : ""
    subject = holder = folder = ""
    for (i = 2; i <= count_cut; i += 2) {
        if (cut[i - 1] ~ /[|]/) folder = ""
        cited(cut[i], row)
        if (i > 2 && subject != "" && cut[i - 1] ~ /^(: |, )$/) {
            if (page !~ /^(PLANS|OPERATORS)/) pair(subject, cut[i])
        } else {
            subject = ""
        }
        if (cut[i + 1] == ": ") subject = cut[i]
        if (i > 2 && holder != "" && cut[i - 1] ~ /^( \(|, )$/) holds(holder, cut[i])
        else holder = ""
        if (cut[i] ~ /\.(rt|antt)$/ && cut[i + 1] == " (") holder = cut[i]
        if (i > 2 && cut[i - 1] ~ /^ (of|in) $|^ \($/) belongs(cut[i - 2], cut[i], cut[i - 1])
    }
    links()
    if (/^`.*` · `.*\.antt`/) heads()
    if (page == "CLAIMS.md" && /^\|/) clauses()
}

# The links of a line: to a file beside the page, and to a heading there.
function links(    rest, target, place, mark) {
    rest = $0
    while (match(rest, /\]\([^)]*\)/)) {
        target = substr(rest, RSTART + 2, RLENGTH - 3)
        rest = substr(rest, RSTART + RLENGTH)
        if (target ~ /^[a-z]+:/) continue
        mark = index(target, "#") ? substr(target, index(target, "#") + 1) : ""
        sub(/#.*/, "", target)
        place = FILENAME
        sub(/[^\/]*$/, "", place)
        place = target == "" ? FILENAME : place target
        while (sub(/[^\/.]+\/\.\.\//, "", place)) continue
        sub(/\/$/, "", place)
        if (!(place in there)) wrong("a link to \47" place "\47, which isn\47t there")
        else if (mark != "" && !((place, mark) in anchor)) wrong("a link to \47" place "#" mark "\47, where no heading is so")
    }
}

# The crate that a row begins with, if it does.
function row_crate(    cell) {
    split($0, cell, "|")
    gsub(/[ `]/, "", cell[2])
    return cell[2] in crate ? cell[2] : ""
}

# One piece of code font.
function cited(text, row,    word, count, i) {
    if (text ~ /^rt / || is_blank(text)) {
        return
    } else if (text ~ / /) {
        count = split(text, word, /[ (){}<>|,;]+/)
        for (i = 1; i <= count; i++) {
            if (word[i] ~ /^(plans|docs|bench|crates)\/[a-z]/) path_cited(word[i], "")
            else if (word[i] ~ /^[A-Za-z][a-z]+_[a-z_]+$|^[A-Z][a-z]+[A-Za-z]*$/) name_cited(word[i])
        }
    } else if (text ~ /^[.\/]*[A-Za-z][A-Za-z_0-9.]*\/[A-Za-z_0-9.\/-]*$/ || text ~ /^[A-Za-z_]+\.(rt|antt|md|plan|trace|out|sh|txt|c)$/) {
        path_cited(text, row)
    } else if (text ~ /^[A-Za-z_][A-Za-z0-9_-]*$/) {
        name_cited(text)
    } else if (text ~ /^[A-Z][A-Za-z]*(\.|::)[A-Za-z_]+$/) {
        split(text, word, /\.|::/)
        if (!(word[1] in at)) name_cited(word[1])
        else if (!((word[1], word[2]) in member)) wrong("'" word[1] "' has no '" word[2] "'")
    }
}

# Whether something is to be filled in: a part in capitals.
function is_blank(text) {
    return text ~ /NAME|^[a-z][A-Z]$/ || ("/" text "/") ~ /[^A-Za-z][A-Z]+[^A-Za-z]/
}

# A file without a folder stands in the one named before it.
function path_cited(text, row) {
    sub(/^(\.\.?\/)+/, "", text)
    sub(/\/$/, "", text)
    if (text ~ /^f[0-9]|^g[0-9]|\/out\//) return
    if (row != "" && text ~ /^(src|specs|proofs|must-fail)\// && !(("crates/" row "/" text) in there)) wrong("'" row "' has no file '" text "'")
    else if (!(text in there)) wrong("no file '" text "'")
    else if (text !~ /\// && folder != "" && text ~ /\.(rt|antt)$/ && !((folder text) in there)) wrong("no file '" text "' in '" folder "'")
    if (text ~ /\/.*\.(rt|antt)$/) {
        folder = text
        sub(/[^\/]*$/, "", folder)
    }
}

function name_cited(text) {
    if (text in at || text in there || text in crate) return
    if (text ~ /^[A-Za-z0-9_]*_[A-Za-z0-9_]*$/) wrong("no '" text "' is defined")
    else print FILENAME ":" FNR "\t" text >words
}

# NAME of WHERE, where this is a crate or a file; in brackets too, but for a case of a type, whose sentence goes on.
function belongs(text, where, between) {
    if (text !~ /^[A-Za-z_][A-Za-z_0-9-]*$/ || !(text in at) || (between ~ /\(/ && text !~ /_/)) return
    if (where in crate) {
        if (!index(at[text] " ", " crates/" where "/") && !((where, text) in inside)) wrong("'" text "' isn't in '" where "'")
    } else if (where ~ /^[A-Z][A-Za-z]*(\/[A-Z][A-Za-z]*)?$/ && where in there && !((where, text) in member)) {
        if (!index(at[text] " ", "/" where ".")) wrong("'" text "' isn't in '" where "'")
    }
}

# `FILE` (`NAME`).
function holds(file, text) {
    if (text ~ /^[A-Za-z_][A-Za-z_0-9-]*$/ && text in at && !index(at[text] " ", "/" file " ")) wrong("'" text "' isn't in '" file "'")
}

# `SUBJECT`: `NAME`, where the subject is a function, a type, a clause or a file. A type after it is what the clause says of.
function pair(subject, text,    word, count) {
    if (text !~ /^[A-Za-z_][A-Za-z_0-9-]*$/ || subject ~ /\.[a-z]+$/ || has(subject, text)) return
    count = split(subject, word, "::")
    if (text ~ /^[A-Z]/ && word[count] in at) return
    if (word[count] in at || subject in there) wrong("'" subject "' has no '" text "'")
}

function has(subject, text,    word, i, count) {
    if ((subject, text) in member) return 1
    if (subject in there && (index(at[text] " ", "/" subject ".") || (subject "/" text) in there)) return 1
    count = split(says[subject], word, " ")
    for (i = 1; i <= count; i++) if ((word[i], text) in member) return 1
    count = split(subject, word, "::")
    return count == 2 && (word[2], text) in member
}

# A head of DEFINITIONS: names, and the files that have them; a type of the program may stand in a source of the same crate.
function heads(    i, k, found) {
    for (i = 2; i <= count_cut; i += 2) {
        if (cut[i] ~ /[.\/]/ || !(cut[i] in at)) continue
        found = 0
        for (k = 2; k <= count_cut; k += 2) {
            if (cut[k] !~ /[.\/]/) continue
            if (index(at[cut[i]] " ", "/" cut[k])) found = 1
            if (cut[i] ~ /^[A-Z]/ && cut[k] ~ /\// && index(at[cut[i]], " crates/" substr(cut[k], 1, index(cut[k], "/")))) found = 1
        }
        if (!found) wrong("'" cut[i] "' isn't in the files of this line")
    }
}

# The last cell of a row of CLAIMS: what stands first in a part is a function or a clause of the crates that the section names, or
# of what the part before is about.
function clauses(    cell, piece, n, i, name, crates, k, found, first, subject) {
    n = split($0, cell, "|")
    crates = split(section, name, /[^a-z_0-9]+/)
    n = split(cell[n - 1], piece, "`")
    first = 1
    subject = ""
    for (i = 2; i <= n; i += 2) {
        if (piece[i - 1] ~ /;/) first = 1
        if (piece[i - 1] !~ /^(, |; | )$/) first = 0
        if (first && piece[i] ~ /^[a-z_]+$/ && !has(subject, piece[i])) {
            found = 0
            for (k = 1; k <= crates; k++) if (name[k] in crate && index(at[piece[i]], " crates/" name[k] "/")) found = 1
            if (!found) wrong("'" piece[i] "' isn't in the crates of '" section "'")
        }
        if (piece[i + 1] == ": ") subject = piece[i]
    }
}
