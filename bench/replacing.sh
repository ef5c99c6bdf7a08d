# The lines that replace a search text throughout a text of 15 MB with 82,883 hits; twice the work has two pages of it.
# A line sets `old` and `new` for the program, as printf reads them, and `regexp`, `with` and `flags` for the peers.
. "$BENCH/line.sh"
before=
peers='perl sed other'
goals='user perl 0.7'
hits=$(scaled 82883)
unit='a hit' units=$hits

make() {
    perl "$BENCH/text.pl" "$hits" > in
    printf "$before"'Y<J<FS'"$old"'\033'"$new"'\033;>-1-^N;P>EX\033\033' > commands
}

by_perl() {
    exec perl -pe "s/$regexp/$with/$flags" in > out
}

by_sed() {
    exec sed -E "s/$regexp/$with/$(echo "$flags" | tr i I)" in > out
}

by_vim() {
    exec vim -es -u NONE -i NONE -n -N -c "%s/$regexp/$with/$flags" -c 'w! out' -c 'q!' in
}
