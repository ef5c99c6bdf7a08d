# A line NAME_by_e does what the line NAME does, with its string given by -e, so that no change is kept. It is that file but for its last
# line, which answers, and sets goals of its own.
eval "$(sed '$d' "$BENCH/lines/$(basename "$0" _by_e)")"

run_teco() {
    exec "$1" --limit "$limit" --output out -e "$(cat commands)" in
}
