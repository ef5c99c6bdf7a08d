# What the lines share that stand beside a program in C: it reads a file whole into memory, writes it and syncs.
. "$BENCH/line.sh"
peers='whole other'

build_whole() {
    ! command -v cc > /dev/null || cc -std=c11 -O2 -o whole "$BENCH/peers/whole.c"
}

by_whole() {
    exec ./whole in out
}
