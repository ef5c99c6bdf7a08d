# A line NAME_wide does what the line NAME does in the wide language, beside the same run in the named one. It is that file but for its last
# line, which answers, and has a goal of its own.
eval "$(sed '$d' "$BENCH/lines/$(basename "$0" _wide)")"
peers=named
goals='counted named 1.03'

run_teco() {
    exec "$1" --wide --limit "$limit" --output out in < commands
}

by_named() {
    exec "$TECO" --limit "$limit" --output out in < commands
}
