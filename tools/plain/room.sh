# A room: a folder outside the repository that rt takes for one, with a crate and all crates that it stands on. What rt
# proves there a gate finds kept, and the other way round; whoever works in the repository can go on meanwhile.
#
# Sourced by ./delaunay and python/build, with $top for the repository.
# shellcheck shell=bash disable=SC2154

declare -A line_of=() needed=() # of a crate: its line of crates.txt, and whether it goes into the room
order=()                        # the crates of crates.txt, lowest first

# Makes the room, with the crate and those that it stands on. It goes when the shell ends, or by `close_room`.
open_room() { # CRATE
    running=
    room=$(mktemp -d "${TMPDIR:-/tmp}/$1-XXXXXX") || return 1
    trap close_room EXIT
    trap 'exit 129' HUP
    trap 'exit 130' INT
    trap 'exit 143' TERM
    read_crates
    need "$1"
    fill_room
}

read_crates() {
    local line name
    while read -r line; do
        line=${line%%#*}
        case $line in *:*) ;; *) continue ;; esac
        name=${line%%:*}
        name=${name%% *}
        line_of[$name]=$line
        order+=("$name")
    done <"$top/crates.txt"
}

# Notes the crate, and those that it stands on.
need() { # CRATE
    local below
    [ -z "${needed[$1]:-}" ] || return 0
    needed[$1]=yes
    for below in ${line_of[$1]#*:}; do
        [ -z "${line_of[$below]:-}" ] || need "$below"
    done
}

fill_room() {
    local crate part
    mkdir -p "$room/.git" && cp "$top/HANDLES" "$room/" || return 1
    for crate in "${order[@]}"; do
        [ -n "${needed[$crate]:-}" ] || continue
        mkdir -p "$room/crates/$crate" || return 1
        for part in src specs proofs args stdin stdout; do
            [ ! -e "$top/crates/$crate/$part" ] || cp -rp "$top/crates/$crate/$part" "$room/crates/$crate/" || return 1
        done
        printf '%s\n' "${line_of[$crate]}"
    done >"$room/crates.txt"
}

# Proves all crates in the room. A command is called with each of them and what rt says of it (`proved`, `is kept: ..`),
# and all that rt says is kept in the room's file `said`.
prove_room() { # COMMAND WORDS
    local line status
    mkfifo "$room/pipe" || return 1
    set -m # with a process group of its own, which close_room ends
    (cd "$room" && exec rt ci </dev/null >pipe 2>&1) &
    running=$!
    set +m
    while IFS= read -r line; do # by this shell, which a signal ends meanwhile
        printf '%s\n' "$line" >&3
        case $line in 'rt: '*' proved' | 'rt: '*' is kept: '*) ;; *) continue ;; esac
        line=${line#rt: }
        [ -z "${needed[${line%% *}]:-}" ] || "$@" "${line%% *}" "${line#* }"
    done 3>"$room/said" <"$room/pipe"
    wait "$running" && status=0 || status=$?
    running=
    return "$status"
}

# Tells the end of what rt said, and keeps all of it.
tell_refusal() { # FILE
    tail -n 40 "$room/said"
    cp "$room/said" "$1" && echo "all that was said: $1"
}

# Leaves no process and no room behind.
close_room() {
    trap - EXIT HUP INT TERM
    [ -z "$running" ] || kill -- "-$running" 2>/dev/null
    rm -rf "$room"
}
