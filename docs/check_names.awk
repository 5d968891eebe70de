# For docs/check: what is defined where. Reads sources, definitions, lemmas and scripts, and prints a line for each name: KIND, NAME,
# OWNER and FILE, with tabs between them. An owner is the type of a field or a method, the function of a clause, or the clause or
# field whose text says a definition.

function say(kind, name, of) {
    print kind "\t" name "\t" of "\t" FILENAME
}

# The definitions in a text, of a clause or a field.
function say_all(text, name) {
    while (match(text, /[A-Z][A-Za-z0-9]*/)) {
        say("says", substr(text, RSTART, RLENGTH), name)
        text = substr(text, RSTART + RLENGTH)
    }
}

FNR == 1 {
    owner = type = fn = ""
    is_source = FILENAME ~ /\.rt$/
    is_script = FILENAME !~ /\.(rt|antt)$/
}

is_script {
    if (match($0, /^[a-z_]+\(\) [{(]/)) say("def", substr($0, 1, index($0, "(") - 1), "")
    else if (match($0, /^(def|function) [a-z_]+/)) say("def", substr($0, index($0, " ") + 1, RLENGTH - index($0, " ")), "")
    next
}

# Definitions and lemmas: a name before a colon; one step in stand fields and cases too.
!is_source {
    if (!match($0, /^ *((abbrev|pub|unfoldable|record|data) )*[^ (){}:]+/)) next
    rest = substr($0, RLENGTH + 1)
    count = split(substr($0, 1, RLENGTH), word, " ")
    name = word[count]
    if (name ~ /^(use|where|--|module|mod|let|in|λ)$/) next
    match($0, /^ */)
    step = RLENGTH
    if (step <= owner_step) owner = ""
    if (count > 1 && word[count - 1] ~ /^(record|data)$/) {
        say("def", name, "")
        owner = name
        owner_step = step
    } else if (rest ~ /^ :( |$)/ || (rest ~ /^ [({].* : / && !/=/)) {
        is_field = owner != "" && step == owner_step + 2
        say(is_field ? "field" : "def", name, is_field ? owner : "")
        if (is_field) say_all(rest, name)
    }
    next
}

/^impl/ {
    type = $0
    sub(/( where.*)? *\{.*$/, "", type)
    while (sub(/<[^<>]*>$/, "", type)) continue
    sub(/^.*[^A-Za-z0-9]/, "", type)
}
/^impl.* Model for / { say("model", type, "") }
match($0, /^(pub )?trait [A-Za-z]+/) {
    count = split(substr($0, RSTART, RLENGTH), word, " ")
    type = word[count]
}
/^}/ { type = "" }
match($0, /(^|[ (])fn [A-Za-z_0-9]+/) {
    fn = substr($0, RSTART, RLENGTH)
    sub(/^.*fn /, "", fn)
    say("fn", fn, type)
}
match($0, /^ *(ensures|requires) [a-z_0-9]+ \{/) {
    split(substr($0, RSTART, RLENGTH), word, " ")
    say("clause", word[2], fn)
    say_all(substr($0, RSTART + RLENGTH), word[2])
}
match($0, /^ *(pub(\([a-z]*\))? )?(struct|enum|trait|type|const|static|mod) [A-Za-z_0-9]+/) {
    count = split(substr($0, RSTART, RLENGTH), word, " ")
    owner = word[count]
    say("def", owner, "")
    if (/^pub (struct|enum) /) say("open", owner, "")
}
match($0, /^ +(pub )?ghost [a-z_]+:/) {
    count = split(substr($0, RSTART, RLENGTH - 1), word, " ")
    say("def", word[count], "")
}
match($0, /^    [A-Z][A-Za-z0-9]*( \{|[(,]|$)/) {
    name = substr($0, RSTART, RLENGTH)
    gsub(/[^A-Za-z0-9]/, "", name)
    say("field", name, owner)
}
match($0, /^    (pub )?[a-z_0-9]+: /) {
    count = split(substr($0, RSTART, RLENGTH - 2), word, " ")
    say("field", word[count], owner)
}
