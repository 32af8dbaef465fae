# What a terminal is told of a program that runs long: every three seconds a line, below the line on which the program
# would write, which is erased at the end. It is read from /proc, and the program knows nothing of it: its bytes and its
# status stay its own, and signals are handed on to it.
#
# Sourced beside words.sh, which runs the program. It calls `sleep` alone, and tells nothing where that or /proc is
# missing, where a terminal cannot erase, or where the program reads from the terminal or writes its output there.
# shellcheck shell=sh

# Runs the program as a child, waits for it, and sets $status to its status. At a terminal it is told of meanwhile, and
# a signal that ended it ends this shell too.
wait_for_program() { # PROGRAM WORDS
    # in the background a child wants /dev/null, and an input that can be handed on
    if [ ! -c /dev/null ] || [ ! -e /proc/self/fd/0 ]; then
        "$@"
        status=$?
        return
    fi
    status='' caught='' again=yes telling=''
    exec 3<&0
    "$@" <&3 3<&- &
    running=$!
    exec 3<&-
    trap 'hand_on HUP HUP' HUP
    trap 'hand_on INT TERM' INT # which a child in the background passes over, as QUIT
    trap 'hand_on QUIT TERM' QUIT
    trap 'hand_on TERM TERM' TERM
    if can_tell; then
        find_size
        read -r begun _ </proc/uptime
        (exec </dev/null >/dev/null && tell "$running" "${2-}") & # whoever reads the output is not kept waiting
        telling=$!
    fi
    while [ -n "$again" ]; do
        again=''
        wait "$running" 2>/dev/null # a signal to this shell ends the waiting
        ended=$?
        [ "$ended" = 127 ] || status=$ended
    done
    if [ -n "$telling" ]; then
        kill "$telling" 2>/dev/null
        [ "$(passed)" -lt 3 ] || wait "$telling" 2>/dev/null # what was told is erased
    fi
    trap - HUP INT QUIT TERM
    [ -z "$caught" ] || [ "$status" -le 128 ] || kill -s "$caught" $$
}

# Whole seconds since the program was begun.
passed() {
    read -r now _ </proc/uptime
    echo "$((${now%.*} - ${begun%.*}))"
}

hand_on() { # SIGNAL SIGNAL-TO-THE-PROGRAM
    caught=$1 again=yes
    kill -s "$2" "$running" 2>/dev/null
}

can_tell() {
    [ -t 2 ] && [ ! -t 0 ] && [ ! -t 1 ] && [ "${TERM:-dumb}" != dumb ] && [ -r "/proc/$running/io" ] &&
        command -v sleep >/dev/null
}

# Tells what a process does until that ends, or TERM is sent, and erases what it told.
tell() { # PROCESS COMMAND
    shown='' taken=0 napping=''
    trap '[ -z "$napping" ] || kill "$napping"; [ -z "$shown" ] || printf "\r\033[J" >&2' EXIT
    trap 'exit 0' TERM
    look_at "$1"
    while :; do
        sleep 3 &
        napping=$!
        wait "$napping" || exit # without a pause nothing is told
        napping=''
        look_at "$1" || exit
        say_stage
        shown="delaunay $2: $(passed) s, $stage, $((memory / 1000)) MB of memory"
        printf '\n%s\033[K\033[A\r' "$shown" >&2
    done
}

# Notes the bytes that a process has read and written, its memory in kilobytes, and whether it is asleep.
look_at() { # PROCESS
    before=$taken taken='' given='' memory='' state=''
    while read -r name number _; do
        case $name in rchar:) taken=$number ;; wchar:) given=$number ;; esac
    done 2>/dev/null <"/proc/$1/io"
    while read -r name number _; do
        case $name in VmRSS:) memory=$number ;; State:) state=$number ;; esac
    done 2>/dev/null <"/proc/$1/status"
    [ -n "$taken" ] && [ -n "$given" ] && [ -n "$memory" ]
}

# The size of the input in bytes where it is a file, else nothing.
find_size() {
    size=''
    [ ! -f /proc/self/fd/0 ] || ! command -v wc >/dev/null || size=$(wc -c </proc/self/fd/0) 2>/dev/null
}

# Which of its three steps it does, by what it read since the look before, and wrote; and how far it is, where that is
# known.
say_stage() {
    if [ "$given" != 0 ]; then
        stage="step 3 of 3: writing, $(in_megabytes "$given") so far"
    elif [ "$taken" -le 8192 ] && [ "$state" = S ]; then
        stage='step 1 of 3: waiting for its input'
    elif [ "$((taken - before))" -gt 8192 ] && [ -n "$size" ] && [ "$size" -gt "$taken" ]; then
        stage="step 1 of 3: reading, $((100 * taken / size)) % of $(in_megabytes "$size")"
    elif [ "$((taken - before))" -gt 8192 ] && [ -z "$size" ]; then # threads read a little of the system as they begin
        stage="step 1 of 3: reading, $(in_megabytes "$taken") so far"
    else
        stage="step 2 of 3: computing, of $(in_megabytes "${size:-$taken}") of input"
    fi
}

in_megabytes() { echo "$(($1 / 1000000)).$(($1 / 100000 % 10)) MB"; }
