# Judges one edit of a crate: awk -v crate=NAME -v edit=FILE -f specs.awk -f judge.awk
#     kind=source FILES.. kind=specs FILES.. kind=proofs FILES.. kind=edit FILE kind=log FILE
#
# The sources tell which functions each wrong version changes, the log which functions were refused for themselves. Both must be the
# functions that the version names. The files of specs/ and the lemma files of proofs/ tell which declarations a wrong version changes, and
# which of them a law sees (specs.awk): the laws that a version names must be refused for themselves, see what it changes, and see nothing that
# another version changes.

function hold(what) {
    print "judge: " edit ": " what
    held = 1
}

# ---- The sources: `owner` says of each line which item it belongs to, `fn crate::module::name`, `const NAME` or `type`; a method of an `impl`
# of the type T is `fn crate::module::T::name`, and of `impl From<U> for T` it is `fn crate::module::TFromU::name`.

# src/lib.rt has crate::name, src/a/b.rt has crate::a::b::name
function path_of(file, name) {
    sub(/^src\//, "", file)
    sub(/\.rt$/, "", file)
    sub(/^(lib|main)$/, "", file)
    gsub(/\//, "::", file)
    return crate (file == "" ? "" : "::" file) "::" name
}

# how the check calls an `impl`, by its head
function block_of(head, type,    half) {
    if (head !~ / for /) return type
    sub(/^impl /, "", head)
    split(head, half, " for ")
    gsub(/[^A-Za-z0-9_]/, "", half[1])
    gsub(/[^A-Za-z0-9_]/, "", half[2])
    return half[2] half[1]
}

kind == "source" && FNR == 1 {
    file = substr(FILENAME, length("crates/" crate "/") + 1)
    files[++file_count] = file
    item = ""
}

kind == "source" && /^#\[cycle\([a-z0-9_]+\)\]$/ {
    cycle = $0
    gsub(/^#\[cycle\(|\)\]$/, "", cycle)
}

kind == "source" {
    line[file, FNR] = $0
    lines[file] = FNR
    if ($0 ~ /^(pub(\([a-z]+\))? )?(extern "C" )?(fn|const|static|struct|enum|type|impl) /) {
        start = $0
        sub(/^(pub(\([a-z]+\))? )?(extern "C" )?/, "", start)
        split(start, word, " ")
        sub(/[^A-Za-z0-9_].*$/, "", word[2])
        item = "type"
        if (word[1] == "fn") item = "fn " path_of(file, word[2])
        if (word[1] == "fn" && cycle != "") cycles[path_of(file, cycle)] = cycles[path_of(file, cycle)] " " path_of(file, word[2])
        cycle = ""
        if (word[1] == "const" || word[1] == "static") item = "const " word[2]
        if (item ~ /^const / && declared[item]++) hold("two constants are called " word[2] ", and the judge cannot tell them apart")
        in_body = 0
        of_impl = word[1] == "impl" ? block_of(start, word[2]) : ""
    }
    if (of_impl != "" && $0 ~ /^    (pub(\([a-z]+\))? )?fn /) {
        start = $0
        sub(/^    (pub(\([a-z]+\))? )?fn /, "", start)
        sub(/[^A-Za-z0-9_].*$/, "", start)
        item = "fn " path_of(file, of_impl "::" start)
        in_body = 0
    }
    owner[file, FNR] = item
    body[file, FNR] = in_body
    if (item ~ /^fn / && $0 ~ (of_impl == "" ? "^([^ ].*[) ])?\\{$" : "^    ([^ ].*[) ])?\\{$")) in_body = 1
    if (of_impl != "" && $0 ~ /^    \}/) item = "type"
    code = $0
    sub(/ *\/\/.*$/, "", code)
    if (code ~ /^\}/ || code ~ /^[^ ].*\}$/ || (item !~ /^fn / && code ~ /;$/)) item = ""
}

function has_word(text, name) {
    sub(/\/\/.*$/, "", text)
    return text ~ ("(^|[^A-Za-z0-9_])" name "([^A-Za-z0-9_]|$)")
}

# The version changes every function that uses the constant, also through other constants.
function change_users(name,    i, n, who) {
    if ((version, name) in spread) return
    spread[version, name] = 1
    for (i = 1; i <= file_count; i++)
        for (n = 1; n <= lines[files[i]]; n++) {
            who = owner[files[i], n]
            if (who == "" || who == "const " name || !has_word(line[files[i], n], name)) continue
            if (who ~ /^fn /) changes[version, substr(who, 4)] = 1
            else if (who ~ /^const /) change_users(substr(who, 7))
            else hold(label[version] " changes a type, and the judge cannot tell which functions that changes")
        }
}

# ---- The edit

# proofs/a/f/Answers.antt is of the proof of crate::a::f; proofs/a/+f/Answers.antt too, where f calls itself; proofs/a/+g/Answers.antt is of
# the proof of all that have #[cycle(g)]. Leaves their names in `proved` and returns how many there are; 0 where the file is no function's own.
function proved_in(file,    step, n, i, at, of) {
    if (file !~ /^proofs\/.*\/(Invariants|Answers|Proof)\.antt$/) return 0
    n = split(file, step, "/") - 1
    at = crate
    for (i = 2; i < n; i++) at = at "::" step[i]
    of = at "::" step[n]
    if (step[n] ~ /^\+/) {
        of = at "::" substr(step[n], 2)
        if (of in cycles) of = cycles[of]
    }
    return split(of, proved, " ")
}

# A file of definitions and laws: of specs/, or one of lemmas, right in proofs/
function is_of_laws(file) { return file ~ /^(specs\/.*|proofs\/[^\/]*)\.antt$/ }

# Loads a file of specs/ or proofs/, and finds the line of the text that is replaced: once in its file, as rt demands.
function place_of(file, old,    n, at, found, text) {
    if (!(file in lines)) {
        lines[file] = 0
        while ((getline text < ("crates/" crate "/" file)) > 0) line[file, ++lines[file]] = text
    }
    for (n = 1; n <= lines[file]; n++) {
        text = line[file, n]
        while (old != "" && (at = index(text, old)) > 0) {
            found++
            place = n
            text = substr(text, at + length(old))
        }
    }
    if (found != 1) hold("an old: text stands " found + 0 " times in " file ": " old)
    return found == 1
}

# The version changes the declaration of specs/ or proofs/ that the line `place` of the file belongs to.
function redefine(file, old,    what) {
    what = declaration[file, place]
    if (!version) alone = 1
    else if (!(version in of_laws)) hold(label[version] " changes " file ", but names no law")
    else if (what == "") hold(label[version] " changes a line of no declaration: " old)
    else {
        if (what in redefined && redefined[what] != version) hold(what " is wrong twice, " label[redefined[what]] " and " label[version])
        redefined[what] = version
        redefines[version] = 1
    }
}

function replace(file, old, new,    n, i, at, text, who) {
    if (!place_of(file, old)) return
    text = line[file, place]
    at = index(text, old)
    line[file, place] = substr(text, 1, at - 1) new substr(text, at + length(old))
    if (is_of_laws(file)) {
        of_specs = defined[file] = 1
        redefine(file, old)
        return
    }
    if (file ~ /^src\//) of_src = 1
    if (!version) {
        hold("a pair stands under no '# wrong' line: " old)
        return
    }
    if (version in of_laws) {
        hold(label[version] " names laws, but changes " file)
        return
    }
    if (file ~ /^proofs\//) {
        n = proved_in(file)
        if (!n) hold(label[version] " changes " file ", which is no function's own proof")
        for (i = 1; i <= n; i++) adapts[version, proved[i]] = 1
        return
    }
    who = owner[file, place]
    if (who ~ /^const /) change_users(substr(who, 7))
    else if (who !~ /^fn /) hold(label[version] " changes a line of no function: " old)
    else {
        if (!body[file, place]) hold(label[version] " changes what " substr(who, 4) " takes or promises, not what it does")
        changes[version, substr(who, 4)] = 1
    }
}

kind == "edit" && /^# wrong / {
    label[++version] = $3
    sub(/:$/, "", label[version])
    if ($0 ~ /^# wrong [A-Za-z0-9_]+:( [A-Z][A-Za-z0-9]*\.[^ .]+)+$/) {
        of_laws[version] = 1
        for (i = 4; i <= NF; i++) falls[version, $i] = 1
        next
    }
    of_functions = 1
    if ($0 !~ /^# wrong [A-Za-z0-9_]+:( [a-z0-9_]+::[A-Za-z0-9_:]+)+$/) hold("not of the form '# wrong LABEL: FN ..' or '# wrong LABEL: File.law ..': " $0)
    for (i = 4; i <= NF; i++) {
        if ($i in named) hold($i " is wrong twice, " label[named[$i]] " and " label[version])
        named[$i] = version
        names[version, $i] = 1
    }
}

kind == "edit" && /^file: / { edited = substr($0, 7) }

kind == "edit" && /^old: / { old = substr($0, 6) }

kind == "edit" && /^new:/ {
    new = substr($0, 5)
    sub(/^ /, "", new)
    replace(edited, old, new)
    old = ""
}

# ---- The log
#
# A function is refused for itself where its line says `not proved` and blames no function that it calls; or where a goal of it is open that no
# answer was written for, which `search` does not prove; or where an answer, an invariant or a lemma of its own proof is refused. Two kinds of
# error there show nothing: one that only says that something else was refused before; and one that says that the proof no longer fits
# the code, since goals or steps were added, are gone or have other names, or since the check does not cover code of this form: a right version
# of another shape would be refused as well.

# A definition is refused by a law, an example or a proof that is refused for itself; where several are wrong, by the laws and examples that
# their versions name. A file of specs/ that the edit changes must stand: a text that is no definition breaks every law, and shows nothing.

# `name`: in front of what is said, where it is said of one declaration
function told_of(    name) {
    if (said !~ /^`[^`]+`: /) return ""
    split(said, name, "`")
    return name[2]
}

# What the error at `at` says, its further lines included
function hear_error(    n, i) {
    if (at in defined) ill = 1
    else if (at != "" && said !~ /was not admitted|^[0-9]+ declarations? that depends? on /) {
        broken = 1
        if (is_of_laws(at) && told_of() != "") fell[unit_of(at) "." told_of()] = 1
    }
    n = at == "" ? 0 : proved_in(at)
    for (i = 1; i <= n; i++)
        if (said ~ /was not admitted|^[0-9]+ declarations? that depends? on /) continue
        else if (said ~ /has no `[^`]*` that can be named from here|has no field `| is not in scope|^`[^`]*_spec`: /) misfit[proved[i]] = 1
        else own[proved[i]] = 1
    at = ""
}

kind == "log" && /^  / {
    said = said " " $0
    next
}

kind == "log" { hear_error() }

kind == "log" && /^\.\/(specs|proofs)\/.*\.antt:[0-9]+:[0-9]+: error: / {
    i = index($0, ": error: ")
    at = substr($0, 3, i - 3)
    said = substr($0, i + length(": error: "))
    sub(/:[0-9]+:[0-9]+$/, "", at)
}

# Those that are open stand in front of the function's own line.
kind == "log" && /^note: src\/[^ ]*:[0-9]+:[0-9]+: it is not proved that / { open = 1 }

kind == "log" && /^fn [^ ]+: / {
    sub(/:$/, "", $2)
    if (/; the borrow checker does not cover /) misfit[$2] = 1
    else if (open || /: not proved$/ || /: no proof: .*`search` did not prove /) own[$2] = broken = 1
    open = 0
}

kind == "log" && /^logic=not-proved/ { refused = 1 }

# ---- The verdict

# The laws that the versions of definitions name
function judge_laws(    v, pair, part, law, other) {
    for (v in of_laws) if (!(v in redefines)) hold(label[v] " changes no definition")
    for (pair in falls) {
        split(pair, part, SUBSEP)
        law = law_of(part[2])
        if (!(law in text_of)) {
            hold(label[part[1]] " names " part[2] ", which is not there")
            continue
        }
        if (!(law in fell)) hold(label[part[1]] ": " part[2] " was not refused for itself")
        other = sees_other(law, part[1])
        if (other != "") hold(label[part[1]] ": " part[2] " sees " other ", which " label[redefined[other]] " changes")
        if (!sees_own) hold(label[part[1]] ": " part[2] " does not see what it changes")
    }
}

# Beside wrong functions: nothing that the code or its proofs name sees a definition that is wrong.
function judge_riders(    name, other) {
    for (name in by_code) {
        other = sees_other(name, 0)
        if (other != "") hold(label[redefined[other]] " changes " other ", which the code sees by " name ": it cannot stand beside wrong functions")
    }
}

# The functions that the versions of functions name
function judge_functions(    pair, part, name) {
    for (pair in changes) {
        split(pair, part, SUBSEP)
        if (!(pair in names)) hold(label[part[1]] " changes " part[2] ", which it does not name")
    }
    for (pair in adapts) {
        split(pair, part, SUBSEP)
        if (!(pair in changes)) hold(label[part[1]] " changes the proof of " part[2] ", but not the function")
    }
    for (pair in names) {
        split(pair, part, SUBSEP)
        if (!(pair in changes)) hold(label[part[1]] " names " part[2] ", which it does not change")
        if (part[2] in misfit) hold(label[part[1]] ": the proof of " part[2] " only stopped fitting")
        else if (!(part[2] in own)) hold(label[part[1]] ": " part[2] " was not refused for itself")
    }
    for (name in own)
        if (!(name in named)) hold(name " was refused for itself, and no version names it")
}

END {
    hear_error()
    if (!refused) hold("was not refused")
    if (alone && (of_src || version)) hold("an edit of specs/ with no '# wrong' line stays alone")
    if (!of_specs && !of_src) hold("changes nothing of src/ or specs/")
    if (of_specs && ill) hold("what the edit changes is itself refused")
    else if (of_specs && !broken) hold("no law, example or proof is refused for itself")
    if (!alone) judge_laws()
    if (of_functions && of_specs && !alone) judge_riders()
    if (of_functions && !alone) judge_functions()
    exit held
}
