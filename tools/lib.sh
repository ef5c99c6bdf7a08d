# What the scripts that read pages share: where the program tecol is, and the bytes that a page's texts stand for. A script that takes this in
# has the top of the repository in `top`.

# The program tecol: what TECOL names; else the one beside a program that is given, in out/, or in its crate's out/.
#   find_tecol [PROGRAM]
find_tecol() {
    for tecol in "${TECOL:-}" "${1:+$(dirname "$1")/tecol}" "$top/out/tecol" "$top/crates/tecol/out/tecol"; do
        [ -z "$tecol" ] || [ ! -x "$tecol" ] || { realpath "$tecol"; return 0; }
    done
    echo 'the program tecol is not there: TECOL=FILE names it' >&2
    return 1
}

# The bytes of a text of a page, from standard input: ^L is a form feed, ^I a tab, ^M a CR, and ^. at the end of a line takes its line
# end away.
text() {
    sed 's/\^L/\f/g; s/\^I/\t/g; s/\^M/\r/g' | awk '{ if (sub(/\^\.$/, "")) printf "%s", $0; else print }'
}

# The bytes of the command strings of the example of this folder. The lines of a session are a string each.
#   strings TECOL [AFTER]    AFTER comes after each string of a session
strings() {
    if [ -e session ]; then
        while IFS= read -r line; do
            printf '%s\n' "$line" | "$1" || return 1
            printf '%s' "${2:-}"
        done < session
    else
        "$1" < commands
    fi
}
