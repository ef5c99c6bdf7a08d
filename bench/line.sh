# What each line of bench/lines answers. A line sets `peers` and `goals`, and has a function `make` and one for each peer.
# WORK is how much is to be done, in hundredths of the work that the line is named for.
#
# A goal is a line of text: `all PEER RATIO` of user and system time together, `user PEER RATIO` of the user time, `peak PEER RATIO` of the
# peak of memory, `counted PEER RATIO` of the instructions of a unit, `held BYTES`, which is the peak of memory beyond what the program takes
# over an empty file, `seconds N` of user time, or `instructions N` or `calls N`, which are the instructions and the system calls that one
# unit of the work takes; `calls` only where strace is.
#
# A line that is counted says what its unit is called, and how many there are. Two sizes are counted, `share` hundredths of the work and twice
# as much, and their difference is told for a unit, so that what is done once is not in it. The instructions of the peer `less` are taken off.
# `whole` is empty where the whole work is too much to be counted.
WORK=${WORK:-100}
limit=1000000000000
peers=
goals=
unit=
units=
share=2
less=-
whole=yes

# So many hundredths of a number.
scaled() {
    echo $(($1 * WORK / 100))
}

# Why a line can't be run here, if it can't.
why_not() {
    :
}

# What is done before a program runs and after it, and is not timed.
begin() {
    :
}

end() {
    :
}

run_teco() {
    exec "$1" --limit "$limit" --output out in < commands
}

answer() {
    case $1 in
        peers) echo $peers ;;
        goals) echo "$goals" ;;
        counted) [ -z "$unit" ] || echo "$share $less ${whole:-no} $units $unit" ;;
        why_not | make | begin | end) "$1" ;;
        teco) run_teco "$TECO" ;;
        other) run_teco "$OTHER" ;;
        *) "by_$1" ;;
    esac
}
