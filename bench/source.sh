# What the lines of sources share: 1 MB of lines such as a keeper of macros writes, and the script that the program tecol took the place of.
# A line sets `options`, what tecol is given, and `form`, `source` or `bytes`, which is what `in` has.
. "$BENCH/line.sh"
peers=script
lines=$(scaled 18000)
unit='a line' units=$lines

why_not() {
    [ -x "$TECOL" ] || echo "$TECOL is not there, or where TECOL says"
}

make() {
    perl -e 'print((q(<FScolour$color$;> .-QB"N 0L.UB |L) . chr(39) . q( %A$ !! the line of each) . "\n") x $ARGV[0], "EX\$\$\n")' "$lines" > in
    [ "$form" = source ] || { "$BENCH/peers/tecol" < in > bytes && mv bytes in; }
}

# What a listing looks like is each program's own, so it is not compared.
run_teco() {
    "$TECOL" $options in > said || exit 1
    [ "$options" = '' ] && mv said out || : > out
}

by_script() {
    "$BENCH/peers/tecol" $script < in > said || exit 1
    [ "$options" = '' ] && mv said out || : > out
}
