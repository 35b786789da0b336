# What tools/man runs, over docs/BOARDS.md and include/windhawker.h. With no folder it only prints the
# pages' names.

# ---- Reading

FILENAME ~ /\.md$/ {
    if ($2 ~ /^wh_/ && $4 ~ /^[0-9]+$/) stack[$2] = $4
    next
}

/^#define WH_VERSION "/ { version = substr($3, 2, length($3) - 2) }

# Lines of the preprocessor, and C++'s brackets around all, are no part of a call.
/^#/ || goes_on_below { goes_on_below = /\\$/; next }
/^extern "C"/ || (/^}$/ && !in_code) { next }

# A comment that starts a line stays at hand until the next blank line or the end of what it is above.
/^\/\*/ { in_comment = 1; split("", comment); lines = 0 }
in_comment {
    comment[++lines] = words_of($0)
    if (/\*\/$/) { in_comment = 0; if (!opening_lines) keep_opening() }
    next
}

/^$/ { if (!in_code) lines = 0; next }
{ code = in_code ? code "\n" $0 : $0; in_code = 1 }
/^}/ || (/;$/ && code !~ /[{]/) { take_code(); in_code = lines = 0 }

function words_of(line) {
    sub(/ *\*\/$/, "", line)
    sub(/^ ?\/?\* ?/, "", line)
    return line
}

function keep_opening(    i) {
    opening_lines = lines
    for (i = 1; i <= lines; i++) opening[i] = comment[i]
}

# A struct that comes back, or a call. A call asks the library (whx_) or explains an answer; what else
# is in the header is its own.
function take_code(    name) {
    if (code ~ /^typedef struct/) {
        name = code
        sub(/.*} */, "", name)
        sub(/;.*/, "", name)
        struct[name] = code
        return
    }
    if (code !~ /static inline/ || !match(code, /wh_[a-z_]+\(/)) return
    name = substr(code, RSTART, RLENGTH - 1)
    if (lines) about[name] = joined()
    if (code !~ /[{]/ || (code !~ /whx_/ && name !~ /^wh_(meaning|look_at)$/)) return
    calls[++count] = name
    prototype[name] = prototype_of(name)
}

function joined(    i, text) {
    for (i = 1; i <= lines; i++) text = text (i > 1 ? " " : "") comment[i]
    return text
}

# From the result to the end of the parameters, on one line, without words that are for compilers.
function prototype_of(name,    text, at, depth) {
    text = code
    gsub(/[ \n]+/, " ", text)
    sub(/.*static inline /, "", text)
    at = index(text, name "(") + length(name)
    do {
        depth += substr(text, at, 1) == "("
        depth -= substr(text, at, 1) == ")"
        at++
    } while (depth > 0 && at <= length(text))
    text = substr(text, 1, at - 1)
    while (match(text, /^(WH_[A-Z_]+(\([^()]*\))? |__attribute__ ?\(\([^()]*(\([^()]*\))?[^()]*\)\) )/))
        text = substr(text, RLENGTH + 1)
    return text
}

# ---- Writing

END {
    if (!count) { print "tools/man: the header has no calls" >"/dev/stderr"; exit 1 }
    if (folder == "") {
        print "windhawker.3"
        for (i = 1; i <= count; i++) print calls[i] ".3"
        exit
    }
    read_numbers()
    write_opening()
    for (i = 1; i <= count; i++) write_call(calls[i])
}

function put(line) { print line >page }

# Text as roff shows it unchanged.
function shown(text,    parts, n, i) {
    n = split(text, parts, /\\/)
    text = parts[1]
    for (i = 2; i <= n; i++) text = text "\\e" parts[i]
    gsub(/-/, "\\-", text)
    gsub(/'/, "\\(aq", text)
    gsub(/`/, "\\(ga", text)
    gsub(/\^/, "\\(ha", text)
    gsub(/~/, "\\(ti", text)
    return text ~ /^\./ ? "\\&" text : text
}

function start_page(name, what) {
    page = folder "/" name ".3"
    put(".\\\" Made by tools/man from include/windhawker.h.")
    put(".TH " toupper(name) " 3 \"\" \"Windhawker " version "\" \"Windhawker\"")
    put(".nh")
    put(".SH NAME")
    put(name " \\- " shown(what))
    put(".SH SYNOPSIS")
    put(".nf")
    put("#include <windhawker.h>")
}

# An item of the list of numbers: `   1  WH_SIZE   k or m is ...`; lines deep below it go on with it.
function is_item(line) { return line ~ /^ +[0-9]+  WH_[A-Z_]+  +[^ ]/ }
function goes_on(line) { return line ~ /^               / }

function read_numbers(    i, parts, number) {
    for (i = 1; i <= opening_lines; i++) {
        if (is_item(opening[i])) {
            split(opening[i], parts, " ")
            number = parts[1]
            label[number] = parts[2]
            meaning[number] = opening[i]
            sub(/^ +[0-9]+  WH_[A-Z_]+  +/, "", meaning[number])
        } else if (number != "" && goes_on(opening[i])) meaning[number] = meaning[number] " " trimmed(opening[i])
        else number = ""
    }
}

function trimmed(line) {
    sub(/^ +/, "", line)
    return line
}

function put_number(number) {
    put(".TP")
    put(".B " number " " shown(label[number]))
    put(shown(meaning[number]))
}

# The first line with words is the page's name and what it is.
function write_opening(    i, what) {
    for (i = 1; opening[i] !~ /[^ ]/; i++);
    what = opening[i]
    sub(/^[A-Za-z]*: */, "", what)
    sub(/\.$/, "", what)
    start_page("windhawker", what)
    put(".PP")
    put("cc main.c $(pkg\\-config \\-\\-cflags \\-\\-libs windhawker)")
    put(".fi")
    put(".SH DESCRIPTION")
    put_sections(i + 1)
    put(".SH CALLS")
    for (i = 1; i <= count; i++) {
        put(".TP")
        put(".BR " calls[i] " (3)")
        put(shown(short(calls[i])))
    }
    close(page)
}

# A heading starts its line and is in capitals. Text has two spaces before it; what has more, and is no
# part of the list, keeps its lines.
function put_sections(first,    i, line, parts, in_list, gap) {
    for (i = first; i <= opening_lines; i++) {
        line = opening[i]
        if (line == "") { gap = 1; continue }
        if (in_list && goes_on(line)) continue
        if (line ~ /^[^ ]/ && line !~ /[a-z]/) put(".SS " shown(line))
        else if (is_item(line)) {
            split(line, parts, " ")
            put_number(parts[1])
        } else {
            if (in_list || gap) put(".PP")
            if (line ~ /^    /) put(".nf\n" shown(line) "\n.fi")
            else put(shown(trimmed(line)))
        }
        in_list = is_item(line)
        gap = 0
    }
}

# What a call does, up to its checks; and the first sentence of it, or what stands before a colon.
function does(name,    text) {
    text = about[name]
    sub(/ *Checks [0-9 ]+\.$/, "", text)
    return text
}

function short(name,    text) {
    text = does(name)
    if (match(text, /[.:]( |$)/)) text = substr(text, 1, RSTART - 1)
    return tolower(substr(text, 1, 1)) substr(text, 2)
}

function write_call(name,    result, checks, n, parts, i) {
    start_page(name, short(name))
    put(".PP")
    put_prototype(prototype[name])
    result = prototype[name]
    sub(/ .*/, "", result)
    if (result in struct) {
        put(".PP")
        put(shown(struct[result]))
    }
    put(".fi")
    put(".SH DESCRIPTION")
    put(shown(does(name)))
    if (match(about[name], /Checks [0-9 ]+\.$/)) {
        checks = substr(about[name], RSTART + 7, RLENGTH - 8)
        put(".SH NUMBERS")
        put("0, WH_DONE, or the first of these that holds, in this order:")
        n = split(checks, parts, " ")
        for (i = 1; i <= n; i++) put_number(parts[i])
    }
    if (name in stack) {
        put(".SH STACK")
        put("On a cortex\\-m3 the library takes " stack[name] " bytes of stack. Set aside 256 more, for the header's own part and what the compiler adds.")
    }
    put(".SH SEE ALSO")
    put(".BR windhawker (3)" others_of(name))
    close(page)
}

# The calls whose comments name this one, or that its own names.
function others_of(name,    i, other, text) {
    for (i = 1; i <= count; i++) {
        other = calls[i]
        if (other != name && (names(about[name], other) || names(about[other], name)))
            text = text " ,\n.BR " other " (3)"
    }
    return text
}

function names(text, call) { return (text " ") ~ (call "[^a-z_]") }

# The parameters, on lines of at most 76 columns.
function put_prototype(text,    parts, n, i, line) {
    n = split(text, parts, /, /)
    line = parts[1]
    for (i = 2; i <= n; i++) {
        line = line ","
        if (length(line parts[i]) > 74) {
            put(shown(line))
            line = "    " parts[i]
        } else line = line " " parts[i]
    }
    put(shown(line ";"))
}
