# Puts each example of a page into a folder of its own below `work`, for tools/check-pages.
#
# A block ```teco, perhaps with options after it, has commands as tecol reads them, and then parts that begin with a line of their own:
#   -- before   the input; empty where it isn't there      -- after   the output; none is written where it isn't there
#   -- printed  what is printed                            -- status N   where it isn't 0 with an output, and 2 without one
#   -- as LINE  a line for the shell that gives the same of the same file, on its standard input
#   -- any file  the two give the same over every file that is tried: no trap names one
#   -- match TEXT   what the commands look for; ^J is a line end in it, and ^. at its end keeps a blank before it
# A block ```sh has lines for the shell, which are run in a folder of its own, and then parts:
#   -- file NAME   a file that is there before                 -- left NAME   a file as it is after; others may be there too
#   -- printed     what comes on standard output               -- errors      what comes on standard error; nothing where it isn't there
#   -- status N    where it isn't 0                            -- needs TOOL  the example is left out where this isn't installed
#   -- as LINE     other lines that type and leave the same    -- match TEXT, -- any file   as above
# After a block with LINE a paragraph may say "*Trap (CASE, CASE):*": over a file of that case, LINE gives something else.
# A block ```session has lines that begin with "* ", each a command string, with what it types after it. The parts are the same.
# A row of a table with four columns has commands in the third, and in the fourth the words that they type, perhaps over INPUT of `one`,
# `two` and `three`, a page each, where its first column has a star after it; in TOUR.md over the four lines of its file.
# In FROM.md a row of three columns has a line for the shell and the STRINGS of `teco -p` that do the same, over the block ```text of the page.
# In README.md a row of two columns has a line for the shell that makes `cat` of the last `dog` of the file f.
# In LANGUAGE.md `COMMANDS` prints `TEXT`, or `types`, or with a code `is`, over the same three pages.
# In a man page, .Dl .. teco .. -e 'COMMANDS' .. comes after comments .\" before, .\" after and .\" typed, each with a text as printf reads it.
# Another line after .Dl is one for the shell where comments .\" file NAME or .\" left NAME come before it, and perhaps .\" status N.

function put(name, text) {
    if (name ~ /\//) system("mkdir -p '" folder "/" substr(name, 1, match(name, /\/[^\/]*$/)) "'")
    printf "%s", text > (folder "/" name)
    close(folder "/" name)
}

function begin(options) {
    n++
    folder = sprintf("%s/%s.%03d", work, page, n)
    system("mkdir -p '" folder "'")
    put("where", page ":" NR)
    put("options", options)
    put("heading", heading)
    put("table", page == "COOKBOOK.md" ? "cookbook_" part_name : page == "teco.1" ? "man_page" : tolower(substr(page, 1, length(page) - 3)))
    put("before", "")
    put("typed", "")
    block = folder
    traps = ""
    has_after = status = 0
}

function finish() {
    put("status", status ? status - 1 : has_after ? 0 : 2)
    folder = ""
}

function append(text) {
    if (part == "after") has_after = 1
    parts[part] = parts[part] text "\n"
}

function end_shell(    name) {
    for (name in parts) put(name, parts[name])
    split("", parts)
    put("shell", "")
    put("status", status ? status - 1 : 0)
    folder = ""
}

function end_block(    name) {
    if (kind == "sh") { end_shell(); return }
    for (name in parts) {
        if (name == "session" && !has_exit) parts["typed"] = parts["typed"] "*^.\n"
    }
    for (name in parts) put(name, parts[name])
    split("", parts)
    finish()
}

# The cases of the traps of a paragraph, for the block above it.
function trapped(    line, cases, k) {
    for (line = $0; match(line, /\*Trap \([^)]*\):\*/); line = substr(line, RSTART + RLENGTH)) {
        cases = substr(line, RSTART + 7, RLENGTH - 10)
        gsub(/, /, "\n", cases)
        traps = traps cases "\n"
    }
    printf "%s", traps > (block "/traps")
    close(block "/traps")
}

# What is inside the backquotes of a column of a table. Two of them, perhaps with a blank inside, stand around what has one.
function code(column) {
    gsub(/\\\|/, "|", column)
    if (!match(column, /`.*`/)) return ""
    column = substr(column, RSTART + 1, RLENGTH - 2)
    if (column ~ /^`.*`$/) {
        column = substr(column, 2, length(column) - 2)
        gsub(/^ | $/, "", column)
    }
    gsub(/`, `/, " ", column)
    return column
}

# A line for the shell, and STRINGS that do the same.
function pair(columns) {
    begin("")
    put("before", sample)
    put("as", code(columns[3]) "\n")
    put("pages", code(columns[4]))
    folder = ""
}

function row(    columns, k, count) {
    gsub(/\\\|/, "\001")
    count = split($0, columns, "|")
    for (k in columns) gsub("\001", "\\|", columns[k])
    if (count == 5 && page == "FROM.md" && code(columns[4]) != "") pair(columns)
    if (count == 4 && page == "README.md" && code(columns[3]) ~ / f$/) last_dog(code(columns[3]))
    if (count != 6 || code(columns[4]) == "") return
    begin("")
    put("row", "")
    put("commands", code(columns[4]) "\n")
    put("typed", code(columns[5]) "\n")
    if (columns[2] ~ /\*/) put("before", "one\n^Ltwo\n^Lthree\n")
    if (page == "TOUR.md") {
        put("table", "tour_answers")
        put("before", "Buy milk\nBuy eggs\nCall Anna\nBuy bread\n")
    }
    if (code(columns[4]) ~ /EX\$\$$/) { has_after = 1; put("written", "") }
    finish()
}

# A line for the shell, over the file f.
function last_dog(line,    name) {
    begin("")
    put("line", line "\n")
    put("file/f", "a dog, a dog\na dog, a dog.\n")
    put("left/f", "a dog, a dog\na dog, a cat.\n")
    name = line
    sub(/ .*/, "", name)
    if (name != "teco") put("needs", name)
    put("shell", "")
    put("status", "0")
    folder = ""
}

# The commands of a sentence, and what it says that they print.
function spoken(commands, texts) {
    sub(/^`/, "", commands)
    sub(/`.*/, "", commands)
    gsub(/\\\|/, "|", commands)
    if (commands !~ /(\$\$|=)$/) return
    if (commands !~ /\$\$$/) commands = commands "$$"
    gsub(/^[^`]*`|`$/, "", texts)
    gsub(/`(, | and )`/, " ", texts)
    begin("")
    put("row", "")
    put("commands", commands "\n")
    put("typed", texts "\n")
    put("before", "one\n^Ltwo\n^Lthree\n")
    finish()
}

function sentences(    line, part, rest, said) {
    said = " (prints|types|is) "
    for (line = $0; match(line, "`[^`]+`(, with A at 0,)?" said "`[^`]+`((, | and )`[^`]+`)*"); line = rest) {
        part = substr(line, RSTART, RLENGTH)
        rest = substr(line, RSTART + RLENGTH)
        # the commands of the next one
        if (rest ~ "^" said) {
            match(part, /(, | and )`[^`]+`$/)
            rest = substr(part, RSTART) rest
            part = substr(part, 1, RSTART - 1)
        }
        if (rest ~ /^ three times/) continue
        match(part, said)
        spoken(part, substr(part, RSTART + RLENGTH))
    }
}

function printf_text(name) {
    sub(/^\.\\" [a-z]+ /, "")
    if (name == "file" || name == "left") { name = name "/" $1; sub(/^[^ ]+ /, ""); is_shell = 1 }
    gsub(/\\n$/, "")
    gsub(/\\n/, "\n")
    held[name] = $0 "\n"
}

# A line of a man page for the shell.
function shell_line(    name) {
    begin("")
    sub(/^\.Dl /, "")
    put("line", $0 "\n")
    for (name in held) put(name, held[name])
    put("shell", "")
    put("status", held_status + 0)
    split("", held)
    is_shell = held_status = 0
    folder = ""
}

function display(    name) {
    if (!match($0, /-e '.*'/)) return
    begin("")
    put("commands", substr($0, RSTART + 4, RLENGTH - 5) "\n")
    put("word", substr($0, RSTART + 4, RLENGTH - 5))
    for (name in held) put(name, held[name])
    if ("after" in held) has_after = 1
    split("", held)
    finish()
}

# The heading above, and for tools/rows the name of the part of the page.
folder == "" && /^##/ {
    heading = $0
    block = ""
    sub(/^#* */, "", heading)
    if (/^## /) { part_name = tolower(heading); gsub(/[^a-z]+/, "_", part_name) }
}

/^```sh$/ { kind = "sh"; begin(""); part = "line"; next }
/^```teco/ || /^```session/ {
    kind = substr($1, 4)
    sub(/^```[a-z]* ?/, "")
    begin(kind == "session" ? "--prompt " $0 : $0)
    part = kind == "session" ? "typed" : "commands"
    has_exit = 0
    next
}
/^```text$/ { in_sample = 1; next }
in_sample && /^```$/ { in_sample = 0; next }
in_sample { sample = sample $0 "\n"; next }
folder && /^```$/ { end_block(); next }
folder && /^-- status / { status = $3 + 1; next }
folder && kind == "sh" && /^-- (file|left) / { part = $2 "/" substr($0, 9); parts[part] = ""; next }
folder && kind == "sh" && /^-- needs / { put("needs", $3); next }
folder && /^-- any file$/ { put("any", ""); next }
folder && /^-- (as|match) / { put($2, substr($0, length($2) + 5) "\n"); next }
folder && /^-- / { part = $2 == "printed" ? "typed" : $2 == "errors" ? "told" : $2; parts[part] = ""; if (part == "after") has_after = 1; next }
folder && /^\* / && kind == "session" {
    if ($0 ~ /EX\$\$$/) has_exit = 1
    parts["session"] = parts["session"] substr($0, 3) "\n"
    part = "typed"
    parts["typed"] = parts["typed"] "*^.\n"
    next
}
folder { append($0); next }
block && /\*Trap \([^)]*\):\*/ { trapped() }
page == "LANGUAGE.md" { sentences() }
/^\|/ { row() }
/^\.\\" (before|after|typed|file|left) / { printf_text($2) }
/^\.\\" status / { held_status = $3 }
/^\.Dl / && is_shell { shell_line(); next }
/^\.Dl .*teco (-q )?-e / { display() }
