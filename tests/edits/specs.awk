# What a law can feel: the declarations of specs/ and of the lemma files right in proofs/, and which of them a law sees. Read beside judge.awk,
# which has the rest.
#
# A law sees what its text names, what the text of that names, and so on through these files of its own crate. That is more than
# the check looks at, since a definition is shut where nobody unfolds it; so a law that does not see a declaration cannot fall by it.
#
#   declaration[FILE, LINE]  the declaration that a line of a file belongs to, as File.name
#   text_of[File.name]       its whole text, comments left out, with the headers of the modules that it stands in
#   means[File, NAME]        what a name says in a file: File.name of its own crate
#   by_code[File.name]       names of these files that src/ or the proof of a function uses
#
# File is the name of the file; where specs/ and proofs/ both have one of this name, that of proofs/ is proofs.File.

BEGIN {
    for (i = 1; i < ARGC; i++) {
        if (ARGV[i] ~ /\/specs\/[^\/]*\.antt$/) in_specs[base_of(ARGV[i])] = 1
        if (ARGV[i] ~ /\/proofs\/[^\/]*\.antt$/) in_proofs[base_of(ARGV[i])] = 1
    }
}

function base_of(file) {
    sub(/^.*\//, "", file)
    sub(/\.antt$/, "", file)
    return file
}

function unit_of(file) { return (file ~ /^proofs\// && base_of(file) in in_specs ? "proofs." : "") base_of(file) }

# The law that a version names
function law_of(name) { return !(name in text_of) && ("proofs." name) in text_of ? "proofs." name : name }

# The names of a text, without brackets, fields and the λ in front; returns how many there are.
function words_of(text, word,    n, i, k) {
    gsub(/[(){};,\[\]]/, " ", text)
    n = split(text, word, " ")
    for (i = 1; i <= n; i++) {
        sub(/^λ/, "", word[i])
        if (word[i] !~ /^Rattle\./) sub(/\..*$/, "", word[i])
        if (word[i] != "") word[++k] = word[i]
    }
    return k + 0
}

# `Rattle.CRATE.specs.File.name`, or proofs.File.name, as File.name; "" where it is none of these files'
function whole_name(path,    step) {
    if (index(path, own_crate) != 1) return ""
    split(substr(path, length(own_crate) + 1), step, ".")
    if (step[1] == "specs" ? !(step[2] in in_specs) : step[1] != "proofs" || !(step[2] in in_proofs)) return ""
    return step[3] == "" ? "" : unit_of(step[1] "/" step[2]) "." step[3]
}

# `use Rattle.CRATE.specs.File.{a, b}`: a and b are File.a and File.b, in the unit `where` or in the code.
function take_use(text, where,    from, n, i, name) {
    sub(/^ *(ghost )?use /, "", text)
    if (index(text, own_crate) != 1 || whole_name(text) == "") return
    if (text !~ /^[^{ ]*\.\{[^{}]*\};? *$/) {
        hold("the judge cannot read this line of " where ": " text)
        return
    }
    from = text
    sub(/\{.*$/, "", from)
    sub(/^[^{]*\{/, "", text)
    sub(/\}.*$/, "", text)
    n = split(text, name, /, */)
    for (i = 1; i <= n; i++)
        if (where == "code") by_code[whole_name(from name[i])] = 1
        else means[where, name[i]] = whole_name(from name[i])
}

# The names that the code or a function's proof writes whole: `Rattle.CRATE.specs.File.name`, and `crate::proofs::File::name` of an attribute
function take_whole(text,    name, i) {
    gsub(/crate::/, own_crate, text)
    gsub(/::/, ".", text)
    while ((i = index(text, own_crate)) > 0) {
        text = substr(text, i)
        name = text
        sub(/[ (){},;].*$/, "", name)
        if (whole_name(name) != "") by_code[whole_name(name)] = 1
        text = substr(text, length(own_crate))
    }
}

# A line that begins a declaration has its name in front of a colon, or behind `data` or `record`; further in than the last one it is a part of that.
function begins_declaration(text) {
    if (inside != "" && indent > inside_indent) return 0
    return text ~ /^((unfoldable|abbrev|opaque|pub|axiom) )*((data|record) +[^ :(){}]|[^ :(){}=]+( \{[^}]*\})? :( |$))/
}

function begin_declaration(text,    i) {
    in_data = text ~ /^((unfoldable|abbrev|opaque|pub) )*data /
    sub(/^((unfoldable|abbrev|opaque|pub|axiom) )*((data|record) +)?/, "", text)
    sub(/[ :(){}].*$/, "", text)
    inside = unit "." text
    inside_indent = indent
    if (!((unit, text) in means)) means[unit, text] = inside
    for (i = 1; i <= depth; i++) text_of[inside] = text_of[inside] " " module_text[i]
}

# The constructors of a data type mean the type; a field of a record is reached by the record's own name.
function take_constructors(text,    n, i, name) {
    sub(/ :( .*)?$/, "", text)
    n = words_of(text, name)
    for (i = 1; i <= n; i++) if (!((unit, name[i]) in means)) means[unit, name[i]] = inside
}

function read_line(text,    bare) {
    sub(/(^| )--.*$/, "", text)
    if (text !~ /^ *$/) {
        match(text, /^ */)
        indent = RLENGTH
        bare = substr(text, indent + 1)
        if (bare ~ /^(pub )?module .* where *$/) {
            while (depth > 0 && module_indent[depth] >= indent) depth--
            module_indent[++depth] = indent
            module_text[depth] = bare
            inside = ""
        } else if (begins_declaration(bare)) {
            while (depth > 0 && module_indent[depth] >= indent) depth--
            begin_declaration(bare)
        } else if (in_data && text ~ /^ *[^ (){}]+( [^ (){}]+)* :( |$)/) take_constructors(text)
        if (inside != "") text_of[inside] = text_of[inside] " " text
    }
    declaration[file, FNR] = inside
}

FNR == 1 {
    own_crate = "Rattle." crate "."
    file = substr(FILENAME, length("crates/" crate "/") + 1)
    states_laws = (kind == "specs" || kind == "proofs") && is_of_laws(file)
}

states_laws && FNR == 1 {
    unit = unit_of(file)
    inside = ""
    in_data = depth = 0
}

states_laws && /^use / {
    take_use($0, unit)
    next
}

states_laws { read_line($0) }

!states_laws && (kind == "proofs" || kind == "source") {
    if (/^ *(ghost )?use /) take_use($0, "code")
    take_whole($0)
}

# Does the declaration `from` see one that a version other than `version` changes (0: that any changes)? Returns it, or "". `sees_own`
# says then whether it sees one that `version` changes.
function sees_other(from, version,    todo, n, i, k, word, name, of, seen, found) {
    sees_own = 0
    n = 1
    todo[n] = from
    seen[from] = 1
    for (i = 1; i <= n; i++) {
        if (todo[i] in redefined) {
            if (redefined[todo[i]] == version) sees_own = 1
            else found = todo[i]
        }
        of = todo[i]
        sub(/\.[^.]*$/, "", of)
        for (k = words_of(text_of[todo[i]], word); k > 0; k--) {
            name = word[k]
            if (whole_name(name) != "") name = whole_name(name)
            else if ((of, name) in means) name = means[of, name]
            else continue
            if (name in seen) continue
            seen[name] = 1
            todo[++n] = name
        }
    }
    return found
}
