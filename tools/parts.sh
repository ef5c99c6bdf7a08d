# What tools/pages, tools/quick and tools/check-bindings share: a folder `work` that is removed however the script ends, and parts that print a line each.

work=$(mktemp -d)
running=
failed=0

# Ends a process, and those that it has started.
end_process() {
    for started in $(cat "/proc/$1/task/$1/children" 2> /dev/null); do
        end_process "$started"
    done
    kill "$1" 2> /dev/null
}

leave() {
    trap '' HUP INT TERM
    [ -z "$running" ] || end_process "$running"
    wait
    rm -rf "$work"
}
trap leave EXIT
trap 'exit 129' HUP
trap 'exit 130' INT
trap 'exit 143' TERM

# Ends the script where one of these commands is missing.
want() {
    for tool in "$@"; do
        command -v "$tool" > /dev/null || { echo "$tool is not installed"; failed=1; }
    done
    [ $failed = 0 ] || exit 2
}

# Waits for what runs, so that a signal ends it at once, and says how it ended.
ended() {
    wait "$running"
    status=$?
    running=
    if [ $status = 0 ]; then
        echo "$1: ok, $(($(date +%s) - began)) s"
    else
        echo "$1: failed, $(($(date +%s) - began)) s"
        failed=1
    fi
    return $status
}

# Runs a part, and says that it begins and how it ended; where it fails, what it printed too.
part() {
    name=$1
    shift
    began=$(date +%s)
    echo "$name .."
    "$@" > "$work/log" 2>&1 < /dev/null &
    running=$!
    ended "$name" || cat "$work/log"
}

# The same for a part that takes long: what it prints is shown as it comes.
long_part() {
    name=$1
    shift
    began=$(date +%s)
    echo "$name .."
    "$@" < /dev/null &
    running=$!
    ended "$name"
}
