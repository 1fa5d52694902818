# The names and paths of the documents against those of the tree; what counts as what is said at the head of run.
# Input, in this order, each part after its stage=..: the tree's files, one a line ('files'); run's list of what is no name ('excused'); the
# sources; the documents. Output, tabs between: 'wrong', document, line, what is wrong; and 'seen', document, line, column, kind: where the first
# thing of each kind that was looked up ends.

# A file or folder of the tree, as documents name it: whole, from crates/ on, from its crate on, or by its last part.
function add_path(p,    q) {
    while (p != "" && !(p in path)) {
        path[p] = 1
        q = p
        if (sub(/^crates\//, "", q)) {
            path[q] = 1
            if (sub(/^[^\/]*\//, "", q)) path[q] = 1
        }
        q = last_part(p)
        path[q] = 1
        files[q] = files[q] " " p
        sub(/\.[a-z]*$/, "", q)
        name[q] = 1
        if (!sub(/\/[^\/]*$/, "", p)) return
    }
}

function last_part(p) {
    sub(/.*\//, "", p)
    return p
}

# Source code without its comment.
function bare(line) {
    if (language == "antt") sub(/(^|[ \t])--.*/, "", line)
    if (language == "bash") sub(/(^|[ \t])#.*/, "", line)
    if (language == "rust") {
        sub(/(^|[ \t])\/\/.*/, "", line)
        if (comment && sub(/.*\*\//, "", line)) comment = 0
        if (comment) return ""
        gsub(/\/\*.*\*\//, "", line)
        if (sub(/\/\*.*/, "", line)) comment = 1
    }
    return line
}

# What a line of code declares: its first word after keywords. Of the kit's libraries, what it imports.
function declare(line, file,    n, i, part) {
    if (line ~ /^ *((pub|ghost|unfoldable) )*use /) {
        if (match(line, /use Rattle\.[a-z0-9_]+/) && (substr(line, RSTART + 11, RLENGTH - 11) in crates)) return
        gsub(/[^-A-Za-z0-9_'\200-\377]+/, " ", line)
        n = split(line, part, " ")
        for (i = 1; i <= n; i++) name[part[i]] = 1
        return
    }
    sub(/^[ \t]+/, "", line)
    while (sub(keywords, "", line)) ;
    # several that have one type, or the first word
    if (!sub(/ : .*/, "", line) || line !~ /^[-A-Za-z0-9_' \200-\377]+$/) sub(/[^-A-Za-z0-9_'\200-\377].*/, "", line)
    n = split(line, part, " ")
    for (i = 1; i <= n; i++) {
        name[part[i]] = 1
        declares[file, part[i]] = 1
    }
}

# The words of the texts that code prints.
function texts(line,    n, i, part) {
    n = split(line, part, "\"")
    for (i = 2; i <= n; i += 2) all_words(part[i], "")
}

# Every word of a line, as a name of the crate whose source it is; or as a name, in scripts, answers and logs.
function all_words(line, crate,    n, i, part) {
    gsub(/[^A-Za-z0-9_]+/, " ", line)
    n = split(line, part, " ")
    for (i = 1; i <= n; i++) {
        if (crate == "") name[part[i]] = 1
        else of_crate[crate, part[i]] = 1
    }
}

function wrong(text) {
    print "wrong\t" doc "\t" line_number "\t" text
}

function first(kind, column) {
    if ((doc, kind) in seen) return
    seen[doc, kind] = 1
    print "seen\t" doc "\t" line_number "\t" column "\t" kind
}

function excused(t) {
    if (!((short, t) in excuse)) return 0
    asked[short, t] = 1
    return 1
}

# The path of the tree that a document means by p, or nothing.
function found(p,    q, pattern) {
    sub(/^\.\//, "", p)
    sub(/\/$/, "", p)
    if (p in path) return p
    if ((p ".edit") in path) return p ".edit"
    if ((p ".antt") in path) return p ".antt"
    if (!index(p, "*")) return ""
    pattern = p
    gsub(/\./, "\\.", pattern)
    gsub(/\*/, "[^/]*", pattern)
    for (q in path) if (q ~ ("^" pattern "$")) return q
    return ""
}

# A path, with the name of something in it after a colon.
function look_path(p, column, kind,    t, q) {
    t = ""
    if (match(p, /:./)) {
        t = substr(p, RSTART + 1)
        p = substr(p, 1, RSTART - 1)
    }
    if (kind != "") first(kind, column)
    q = found(p)
    if (q == "") wrong(p " is no path of the tree")
    else if (t != "") look_within(t, q, column)
    return q
}

# A name that must be declared in the file q, or a file of the folder q.
function look_within(t, q, column,    n, i, part) {
    if (column) first("name of a file", column)
    if (("crates/" q, t) in declares || (q, t) in declares || found(q "/" t) != "") return
    n = split(files[q], part, " ")
    for (i = 1; i <= n; i++) if ((part[i], t) in declares) return
    wrong(t " is not declared in " q)
}

# a::b::c: where a is a crate, its code has the others; else the code of one crate has all of them.
function look_joined(t, column,    n, i, part, c) {
    first("name of a crate", column)
    n = split(t, part, "::")
    if (part[1] in crates) {
        for (i = 2; i <= n; i++) if (!((part[1], part[i]) in of_crate)) wrong(part[i] " of " t " is not in crates/" part[1] "/src")
        return
    }
    for (c in crates) {
        for (i = 1; i <= n; i++) if (!((c, part[i]) in of_crate)) break
        if (i > n) return
    }
    wrong(t " is in no crate's code")
}

function look_name(t, column) {
    first("name", column)
    if (!(t in name)) wrong(t " is no name of the tree")
}

# A back-ticked phrase from a column on. Its path, where it is one and nothing else.
function phrase(s, column,    many, command, option, rest, t, n, i, part, p) {
    if (excused(s)) return ""
    many = s ~ / /
    command = (s ~ commands)
    if (s ~ /^rt [-a-z]+ [a-z]+$/) {
        split(s, part, " ")
        first("crate of rt", column + length(s))
        if (!(part[3] in crates)) wrong(part[3] " is no crate")
    }
    p = ""
    rest = s
    while (match(rest, /[-A-Za-z0-9_'.\/:*\200-\377]+/)) {
        t = substr(rest, RSTART, RLENGTH)
        column += RSTART + RLENGTH - 1
        rest = substr(rest, RSTART + RLENGTH)
        option = t ~ /^-/
        gsub(/^[-':]+|[-:]+$/, "", t)
        if (t !~ /[A-Za-z]/ || excused(t) || t ~ outside || (many && t ~ /^[A-Z]+[0-9]?$/)) continue
        if (t ~ /\// || t ~ ending) p = look_path(t, column, "path")
        else if (command) continue
        else if (t ~ /::/) look_joined(t, column)
        else {
            n = split(t, part, /[.:*]+/)
            for (i = 1; i <= n; i++) {
                if (part[i] !~ /^.*[A-Za-z]/ || length(part[i]) < 2 || part[i] ~ /^[0-9]/ || excused(part[i])) continue
                if (n == 1 && !many && !option && within != "") look_within(t, within, column)
                else look_name(part[i], column)
            }
        }
    }
    return many ? "" : p
}

# Text outside back-ticks, from a column on: paths only.
function plain(text, column,    t) {
    while (match(text, /[-A-Za-z0-9_.*\/]+/)) {
        t = substr(text, RSTART, RLENGTH)
        column += RSTART + RLENGTH - 1
        text = substr(text, RSTART + RLENGTH)
        sub(/\.+$/, "", t)
        if ((t ~ ending || t ~ /\/.*\.[a-z]+$/) && t !~ outside && !excused(t)) look_path(t, column, t ~ /\// ? "path in plain text" : "")
    }
}

# A paragraph's brackets that have back-ticked names and one path of a source, commas between: they are declared there.
function brackets(text,    group, n, i, part, m, j, item, p) {
    while (match(text, /\([^()]*\)/)) {
        group = substr(text, RSTART + 1, RLENGTH - 2)
        text = substr(text, RSTART + RLENGTH)
        n = split(group, part, / *; */)
        for (i = 1; i <= n; i++) {
            if (part[i] !~ /^`[^`]*`(, `[^`]*`)+$/) continue
            gsub(/`/, "", part[i])
            m = split(part[i], item, ", ")
            p = ""
            for (j = 1; j <= m; j++) if (item[j] ~ /\/.*\.(antt|rt)$/) p = p == "" ? found(item[j]) : "/"
            if (p == "" || p == "/") continue
            # what is no name at all has been said
            for (j = 1; j <= m; j++) if (item[j] in name) look_within(item[j], p, 0)
        }
    }
}

function paragraph() {
    line_number = begun
    brackets(text)
    text = ""
}

# A document's line. 'within' is the file that was named for what follows, 'named' the path just read.
function document(line,    n, i, part, column, p) {
    if (line ~ /^ *([-|#]|[0-9]+\.|$)/) {
        paragraph()
        within = named = ""
    }
    if (text == "") begun = FNR
    text = text (text == "" ? "" : " ") line
    gsub(/  +/, " ", text)
    line_number = FNR
    if (match(line, /^    [a-z_]+(::[A-Za-z_]+)+\(/)) look_joined(substr(line, 5, RLENGTH - 5), RLENGTH - 1)
    n = split(line, part, "`")
    if (n && n % 2 == 0) wrong("a back-tick without its second")
    column = 1
    for (i = 1; i <= n; i++) {
        if (i % 2) {
            plain(part[i], column)
            if (named != "" && part[i] ~ /^(:| \()/) within = named
            else if (part[i] ~ /\(/) within = ""
            if (part[i] ~ /[;|)]|\. /) within = ""
            if (part[i] != "") named = ""
        } else {
            p = phrase(part[i], column)
            if (p != "") {
                within = ""
                named = p ~ /\.(antt|rt|rs|c|h|py)$/ || p !~ /\.[a-z]*$/ ? p : ""
            }
        }
        column += length(part[i]) + 1
    }
}

BEGIN {
    keywords = "^(pub|pub\\(crate\\)|pattern|abbrev|unfoldable|opaque|data|record|module|mod|ghost|trait|type|fn|struct|enum|const|static|unsafe|extern \"C\"|extern|def|class|let|mut|#define|typedef) +"
    n = split("pub crate fn let mut const unsafe extern if else bool u8 u32 u64 usize", part, " ")
    for (i = 1; i <= n; i++) name[part[i]] = 1
    ending = "\\.(antt|rt|rs|c|h|py|md|txt|script|answers|log|report|look|edit|toml)$"
    outside = "^(/|target/|crates/[^/]*/out(/|$))"
    commands = "^(rt|cargo|cc|cp|git|timeout|tar|uname|report|\\./[a-z]+|bench/run|\\.ci/run)( |$)"
}

stage == "files" {
    sub(/^\.\//, "")
    add_path($0)
    if ($0 ~ /^crates\/[^\/]*\//) {
        split($0, part, "/")
        crates[part[2]] = 1
        sub(/.*\//, "")
        sub(/\..*/, "")
        if (part[3] == "src") of_crate[part[2], $0] = 1
    }
    next
}

stage == "excused" {
    if (split($0, part, / *\t */) == 3) excuse[part[1], part[2]] = 1
    next
}

stage == "sources" {
    if (FNR == 1) {
        comment = 0
        split(FILENAME, part, "/")
        crate = FILENAME ~ /^crates\/[^\/]*\/src\// ? part[2] : ""
        language = FILENAME ~ /\.antt$/ ? "antt" : FILENAME ~ /\.(rt|rs|c|h)$/ ? "rust" : "bash"
    }
    line = bare($0)
    if (crate != "") {
        all_words(line, crate)
        texts(line)
    }
    if (FILENAME ~ /\.(script|answers)$/) all_words(line, "")
    else declare(line, FILENAME)
    next
}

{
    if (FNR == 1) {
        paragraph()
        doc = short = FILENAME
        sub(/.*\/[0-9]+\//, "", short)
        within = named = ""
        docs[doc] = short
    }
    document($0)
}

END {
    paragraph()
    line_number = "-"
    for (k in excuse) {
        split(k, part, SUBSEP)
        for (doc in docs) if (docs[doc] == part[1] && !(k in asked)) wrong("'" part[2] "' is in the list of what is no name, and nothing asks for it")
    }
}
