# What the recipes share. Each keeps what it starts in a folder of its own, with the numbers of its processes in pids.
set -u
here=$(dirname "$(readlink -f "${BASH_SOURCE[0]}")")
examples=$(dirname "$here")
recipe=$(basename "$0")
export TEMPO=${TEMPO:-$(readlink -f "$examples/../tempo")}
work=${RECIPE_FOLDER:-${TMPDIR:-/tmp}/tempo-$recipe-$(id -u)}

# Ends with status 77, which says "skipped", where a tool is missing.
need() {
    local tool
    for tool; do
        command -v "$tool" >/dev/null || { echo "$tool is not installed"; exit 77; }
    done
}

begin() {
    [ ! -s "$work/pids" ] || { echo "$recipe: it was started already; \`$recipe stop\` ends it"; exit 1; }
    mkdir -p "$work" && : >"$work/pids"
}

# Starts a command in the background, in a session of its own.
launch() {
    setsid "$@" </dev/null >>"$work/log" 2>&1 &
    echo $! >>"$work/pids"
}

# Ends what launch started, and what that started.
halt() {
    [ -f "$work/pids" ] || return 0
    local pid
    for pid in $(tac "$work/pids"); do
        kill "-${halt_signal:-TERM}" -- "-$pid" 2>/dev/null
    done
    for _ in $(seq 50); do
        local left=0
        for pid in $(cat "$work/pids"); do
            kill -0 -- "-$pid" 2>/dev/null && left=1
        done
        [ $left = 0 ] && break
        sleep 0.1
    done
    for pid in $(cat "$work/pids"); do
        kill -KILL -- "-$pid" 2>/dev/null
    done
    rm -f "$work/pids"
}

# Waits until a command holds, for ten seconds at most, or as many as $patience says.
until_holds() {
    for _ in $(seq $((10 * ${patience:-10}))); do
        "$@" >/dev/null 2>&1 && return 0
        sleep 0.1
    done
    echo "$recipe: waited in vain for: $*"
    return 1
}

has_lines() {
    [ -f "$1" ] && [ "$(wc -l <"$1")" -ge "$2" ]
}

# The number of the tempo that runs in what launch started: the process with a query that is no shell's.
tempo_pid() {
    local group
    for group in $(cat "$work/pids"); do
        ps -o pid=,args= -g "$group" | awk '/ --query / && !/bash/ && !/awk/ { print $1; exit }'
    done | grep -m 1 .
}

# The kinds of the answer's columns, with commas between: of the plan the line of the root has them.
kinds_of() {
    local plan
    plan=$("$TEMPO" --mode explain --query "$1") || return
    awk '$1 == "root" { print node[$2] } { node[$1] = $NF }' <<<"$plan" | sed -E 's/[^,]*:([a-z0-9()]+)/\1/g'
}

# The files, or what comes in, with a line of progress where somebody looks and pv is installed.
shown() {
    if [ -t 2 ] && command -v pv >/dev/null; then pv -- "$@"; else cat -- "$@"; fi
}

# Compares a file with what was wanted.
same() {
    diff -u --label wanted --label got <(printf '%s\n' "$2") "$1"
}

# A try runs in a new folder, and ends what it started however it ends.
try_begins() {
    work=$(mktemp -d) || exit 1
    export RECIPE_FOLDER=$work
    trap 'halt; rm -rf "$work"' EXIT
    trap 'exit 1' INT TERM
    begin
}
