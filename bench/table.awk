# Makes the tables of bench/run from its goals, its counts and its times, and with check=1 ends with status 1 unless each goal is reached.
# A goal is NAME KIND .., as bench/line.sh says; a count is NAME SIZE PROGRAM INSTRUCTIONS CALLS and what the line answers to `counted`, its
# size `little` or `more`, or that of a time where twice the work is to be judged; a time is NAME SIZE PROGRAM USER SYSTEM KILOBYTES, one for
# each round.

# Sorts the n values of a row, and gives the one in the middle.
function middle(values, n,    i, k, v) {
    for (i = 2; i <= n; i++) {
        v = values[i]
        for (k = i - 1; k > 0 && values[k] > v; k--) values[k + 1] = values[k]
        values[k + 1] = v
    }
    return values[int((n + 1) / 2)]
}

function sorted(column, row,    k, values) {
    for (k = 1; k <= rounds[row]; k++) values[k] = column[row, k]
    mid = middle(values, rounds[row])
    least = values[1]
}

function ratio(a, b) {
    return b > 0 ? sprintf("%.2f", a / b) : "-"
}

function figure(n) {
    return n < 100 ? sprintf("%.3g", n) : sprintf("%.0f", n)
}

# Notes whether what was seen is within a goal, and whether it misses it by less than a tenth.
function judge(text, seen, wanted) {
    goal[++judged] = sprintf("%s %s: %s, wanted at most %s%s", seen <= wanted ? "reached" : "MISSED ", text, figure(seen), figure(wanted),
        seen > wanted && seen < wanted * 1.1 ? ", by less than a tenth" : "")
    if (seen > wanted) missed = 1
}

# Judges what may not have been seen, as where a peer is not installed or a time is too short to be told.
function judge_seen(is_seen, text, seen, wanted) {
    if (is_seen) judge(text, seen, wanted)
    else { goal[++judged] = "not judged " text; missed = 1 }
}

function judge_ratio(text, part, ours, theirs) {
    judge_seen(theirs > 0, part[1] ", " text " beside " part[3], theirs > 0 ? ours / theirs : 0, part[4])
}

# What a unit takes by its two sizes, in a column of the counts.
function of_unit(column, name, program,    a, b) {
    a = name " little " program; b = name " more " program
    return units[b] > units[a] ? (column[b] - column[a]) / (units[b] - units[a]) : ""
}

# Judges that twice the work takes at most 2.2 times as much, of a row of the program.
function judge_growth(name, row, before,    text, size) {
    text = name ", twice the work"
    size = ((name " twice teco") in counted) ? "twice" : "more"
    if (b[before] >= 0.02 && size == "more" && b[row] <= 2.2 * b[before]) judge(text, b[row] / b[before], 2.2)
    else if ((name " " size " teco") in counted)
        judge(text ", by instructions", counted[name " " size " teco"] / counted[name " " (size == "twice" ? "once" : "little") " teco"], 2.2)
    else if (b[before] >= 0.02) judge(text, b[row] / b[before], 2.2)
}

function print_times(    format, r, row, part, first, before) {
    format = "%-28s %-5s %-7s %7s %7s %7s %7s %8s %8s %8s %7s\n"
    if (nrows > 0) printf format, "line", "work", "program", "user", "middle", "system", "middle", "x user", "x both", "peak MB", "growth"
    for (r = 1; r <= nrows; r++) {
        row = rows[r]
        split(row, part, " ")
        first = part[1] " " part[2] " teco"
        if (!(first in rounds)) first = part[1] " " part[2] " ours"
        before = part[1] " once " part[3]
        printf format, part[1], part[2], part[3], sprintf("%.3f", u[row]), sprintf("%.3f", um[row]),
            sprintf("%.3f", s[row]), sprintf("%.3f", sm[row]),
            row == first ? "" : ratio(u[first], u[row]), row == first ? "" : ratio(b[first], b[row]),
            peak[row] ? sprintf("%.1f", peak[row] / 1000) : "", part[2] == "twice" ? ratio(b[row], b[before]) : ""
        if (row == first && part[2] == "twice") judge_growth(part[1], row, before)
    }
}

# Of each line that was counted, what a unit takes; of the program without what `less` takes.
function print_counts(    format, c, part, name, taken, made) {
    format = "%-28s %-20s %-7s %12s %8s %8s\n"
    if (ncounts > 0) printf "\n" format, "line", "instructions of", "program", "a unit", "x", "calls"
    for (c = 1; c <= ncounts; c++) {
        split(counts[c], part, " ")
        name = part[1]
        taken = of_unit(counted, name, part[3])
        if (taken == "") continue
        if (part[3] != "teco") {
            printf format, name, unit[name], part[3], figure(taken), part[3] == less[name] ? "" : ratio(takes[name], taken), ""
            continue
        }
        takes[name] = taken - (less[name] == "-" ? 0 : of_unit(counted, name, less[name]))
        made = ""
        if (called[counts[c]] != "-") made = calls[name] = of_unit(called, name, "teco")
        printf format, name, unit[name], "teco", figure(takes[name]), "", (made >= 1 ? figure(made) : "")
    }
}

FILENAME == ARGV[1] { if (NF > 2) goals[++ngoals] = $0; next }
FILENAME == ARGV[2] {
    row = $1 " " $2 " " $3
    if ($2 == "more") counts[++ncounts] = row
    counted[row] = $4; called[row] = $5; less[$1] = $7; units[row] = $9
    unit[$1] = $10
    for (k = 11; k <= NF; k++) unit[$1] = unit[$1] " " $k
    next
}
{
    row = $1 " " $2 " " $3
    if (!(row in rounds)) rows[++nrows] = row
    k = ++rounds[row]
    user[row, k] = $4; system_[row, k] = $5; both[row, k] = $4 + $5
    if ($6 > peak[row]) peak[row] = $6
}
END {
    for (r = 1; r <= nrows; r++) {
        row = rows[r]
        sorted(user, row); u[row] = least; um[row] = mid
        sorted(system_, row); s[row] = least; sm[row] = mid
        sorted(both, row); b[row] = least
    }
    print_times()
    print_counts()
    for (g = 1; g <= ngoals; g++) {
        split(goals[g], part, " ")
        first = part[1] " once teco"
        if (!(first in rounds)) first = part[1] " once ours"
        peer = part[1] " once " part[3]
        of = part[1] in unit ? unit[part[1]] : "a unit"
        if (part[2] == "user") judge_ratio("user time", part, u[first], u[peer])
        if (part[2] == "all") judge_ratio("user and system time", part, b[first], b[peer])
        if (part[2] == "peak") judge_ratio("peak of memory", part, peak[first], peak[peer])
        if (part[2] == "counted") {
            theirs = of_unit(counted, part[1], part[3])
            judge_seen(theirs > 0, part[1] ", instructions of " of " beside " part[3], theirs > 0 ? takes[part[1]] / theirs : 0, part[4])
        }
        if (part[2] == "held") judge_seen(first in rounds, part[1] ", bytes held", (peak[first] - base) * 1024, part[3])
        if (part[2] == "seconds") judge_seen(first in rounds, part[1] ", user time in seconds", u[first], part[3])
        if (part[2] == "instructions") judge_seen(part[1] in takes, part[1] ", instructions of " of, takes[part[1]], part[3])
        if (part[2] == "calls" && part[1] in calls) judge(part[1] ", system calls of " of, calls[part[1]], part[3])
    }
    print ""
    for (k = 1; k <= judged; k++) print goal[k]
    exit check && missed
}
