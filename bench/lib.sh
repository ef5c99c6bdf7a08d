# Functions of bench/run: what is built, how a program is measured, and the rounds of a line.

say() {
    echo "bench: $*" >&2
}

# Ends where a tool is missing that every line needs.
want_tools() {
    for tool in /usr/bin/time bash perl awk cmp; do
        command -v "$tool" > /dev/null || { say "$tool is not installed; see bench/README.md"; exit 2; }
    done
}

# Whether a program is not there, or a source is newer than it.
is_stale() {
    [ ! -x "$1" ] || [ -n "$(find "$BENCH/../crates.txt" "$BENCH"/../crates/*/src "$BENCH"/../crates/*/specs -type f -newer "$1" -print -quit)" ]
}

# Builds the program, unless it is there and no source is newer; or takes the one that TECO names.
build() {
    if [ -z "${TECO:-}" ]; then
        TECO=$BENCH/../crates/teco/out/teco
        if is_stale "$TECO"; then
            say 'building the program'
            (cd "$BENCH/../crates/teco" && printf 'EX\033\033' | ${RT:-rt} run -- --output /dev/null /dev/null) > "$work/build" 2>&1 ||
                { cat "$work/build" >&2; exit 2; }
        fi
    fi
    export TECO
    export TECOL="${TECOL:-$BENCH/../crates/tecol/out/tecol}"
}

# The command that must be installed for a peer.
command_of() {
    case $1 in
        rust) echo rustc ;;
        whole) echo cc ;;
        other) echo "${OTHER:-no other build, which OTHER would name}" ;;
        named | run | script) echo sh ;;
        *) echo "$1" ;;
    esac
}

# The program and those of a line's peers that are installed; the others are told.
programs_of() {
    echo teco
    for peer in $("$BENCH/lines/$1" peers); do
        if command -v "$(command_of "$peer")" > /dev/null; then
            echo "$peer"
        elif [ "$peer" != other ] || [ -n "${OTHER:-}" ]; then
            say "$1: $peer is skipped, since $(command_of "$peer") is not installed"
        fi
    done
}

# Runs a program of a line, and notes its user and system time in seconds and its peak of memory in kilobytes.
#   measure NAME once|twice PROGRAM
measure() {
    rm -f out
    "$BENCH/lines/$1" begin
    bash -c 'TIMEFORMAT="%3U %3S"; time /usr/bin/time -q -o peak -f %M "$@" > typed 2> errors' bench \
        "$BENCH/lines/$1" "$3" 2> spent || { say "$1: $3 has failed"; cat errors >&2; exit 2; }
    "$BENCH/lines/$1" end
    echo "$1 $2 $3 $(cat spent) $(tail -n 1 peak)" >> "$work/times"
}

# Compares what a program of a line has written with what the program wrote.
compare() {
    if [ "$2" = teco ]; then
        mv -f out out.teco
    else
        cmp out out.teco || { say "$1: what $2 writes is not what teco writes"; exit 2; }
    fi
}

# Notes the times of programs that take them inside: each line of what they print is PART PROGRAM NANOSECONDS RESULT.
inside() {
    "$BENCH/lines/$1" programs > typed
    awk '($1 in result) && result[$1] != $4 { exit 1 } { result[$1] = $4 }' typed ||
        { say "$1: the results differ"; cat typed >&2; exit 2; }
    awk -v name="$1" -v size="$2" '{ printf "%s-%s %s %s %.6f 0 0\n", name, $1, size, $2, $3 / 1e9 }' typed >> "$work/times"
}

# Makes the inputs of a line, and runs its programs in turn, in as many rounds as ROUNDS says.
#   rounds NAME once|twice
rounds() {
    say "$1, $2"
    mkdir "$work/line"
    cd "$work/line"
    "$BENCH/lines/$1" make
    for round in $(seq "${ROUNDS:-5}"); do
        if [ "$("$BENCH/lines/$1" peers)" = inside ]; then
            inside "$1" "$2"
        else
            for program in $(programs_of "$1" 2> skipped); do
                measure "$1" "$2" "$program"
                compare "$1" "$program"
            done
            [ "$round" != 1 ] || [ "$2" != once ] || cat skipped >&2
        fi
    done
    cd /
    rm -r "$work/line"
}

# Whether instructions can be counted; that they can't is told once.
can_count() {
    command -v valgrind > /dev/null && return 0
    [ -n "${told-}" ] || say 'no instruction is counted, since valgrind is not installed'
    told=yes
    return 1
}

# Whether the times of a line don't tell that twice the work took the program at most 2.2 times as long: they are more, or too short.
is_growth_open() {
    awk -v name="$1" '
        $1 == name && $3 == "teco" && !($2 in least && least[$2] < $4 + $5) { least[$2] = $4 + $5 }
        END { exit !("once" in least && (least["once"] < 0.02 || least["twice"] > 2.2 * least["once"])) }' "$work/times"
}

# Callgrind, which counts a byte of a `rep` as an instruction: so the C library is told to fill and copy blocks without one.
callgrind() {
    GLIBC_TUNABLES=glibc.cpu.x86_rep_movsb_threshold=1000000000:glibc.cpu.x86_rep_stosb_threshold=1000000000 \
        valgrind --tool=callgrind --callgrind-out-file=/dev/null "$@"
}

# Notes how many instructions programs of a line take, with those of their children and of the shell, and the program's system calls.
#   count NAME SIZE PROGRAM..
count() {
    line=$1 size=$2
    shift 2
    mkdir "$work/line"
    cd "$work/line"
    "$BENCH/lines/$line" make
    for program in "$@"; do
        rm -f out counted.*
        "$BENCH/lines/$line" begin
        callgrind --trace-children=yes --log-file=counted.%p "$BENCH/lines/$line" "$program" > typed 2> errors ||
            { say "$line: $program could not be counted"; cat errors >&2; exit 2; }
        taken=$(cat counted.* | awk '/Collected :/ { n += $4 } END { printf "%.0f", n }')
        calls=-
        case "$program $size" in
            'teco little' | 'teco more') calls=$(calls_of "$line") ;;
        esac
        echo "$line $size $program $taken $calls $("$BENCH/lines/$line" counted)" >> "$work/counts"
    done
    cd /
    rm -r "$work/line"
}

# The system calls of the program in a line; `-` without strace.
calls_of() {
    command -v strace > /dev/null || { echo -; return; }
    printf '#!/bin/sh\nexec strace -f -qq -A -o "$PWD/calls" %s "$@"\n' "$TECO" > traced
    chmod +x traced
    : > calls
    "$BENCH/lines/$1" begin
    TECO=./traced "$BENCH/lines/$1" teco > typed 2> errors || { say "$1: its system calls could not be counted"; cat errors >&2; exit 2; }
    wc -l < calls
}

# Counts the programs of a line at two small sizes, but for ed and vim, which callgrind makes too slow; and the program at both sizes that
# were timed, if the times tell too little.
count_line() {
    can_count || return 0
    counted=$("$BENCH/lines/$1" counted)
    [ -n "$counted" ] || return 0
    say "$1, counted by callgrind"
    timed=$WORK
    export WORK="${counted%% *}"
    programs=$(programs_of "$1" 2> /dev/null | grep -vx -e ed -e vim)
    count "$1" little $programs
    export WORK=$((WORK * 2))
    count "$1" more $programs
    case $counted in
        *' no '*) return 0 ;;
    esac
    if is_growth_open "$1"; then
        export WORK="$timed"
        count "$1" once teco
        export WORK=$((timed * 2))
        count "$1" twice teco
    fi
}

# The kilobytes that the program takes over an empty file.
peak_over_nothing() {
    printf 'EX\033\033' | /usr/bin/time -q -o "$work/peak" -f %M "$TECO" --output /dev/null /dev/null
    tail -n 1 "$work/peak"
}
