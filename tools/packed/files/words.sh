# What is said of the words of `delaunay`: help, and which word it does not take. The program itself decides: what is
# told here of words only says whether it is waited for, and what is added to its status 2.
#
# Sourced by bin/delaunay of a release and by ./delaunay of the repository, with $help for the file of the help, beside
# progress.sh. It calls nothing but the shell.
# shellcheck shell=sh disable=SC2154

show() { while IFS= read -r line; do printf '%s\n' "$line"; done <"$1"; }

# Finds a command in the lines of usage: what stands behind it is $takes, the words there with dashes are $options.
find_command() { # COMMAND
    while IFS= read -r line && [ -n "$line" ]; do
        takes=${line#*delaunay }
        names=${takes%% *}
        takes=${takes#"$names "}
        case "|$names|" in *"|$1|"*) find_options && return ;; esac
    done <"$help"
    return 1
}

find_options() {
    options=
    rest=$takes
    while [ "$rest" != "${rest#*--}" ]; do
        rest=${rest#*--}
        options="$options --${rest%%[] ]*}"
    done
}

# Shows the paragraphs of the help that begin with one of these words.
show_paragraphs() { # WORDS
    shown=
    while IFS= read -r line; do
        case $line in
        '   '*) ;;
        '  '*)
            head=${line#  }
            case " $1 " in *" ${head%% *} "*) shown=yes ;; *) shown= ;; esac
            ;;
        *) shown= ;;
        esac
        [ -z "$shown" ] || printf '%s\n' "$line"
    done <"$help"
}

# Ends with the help, where the words call for it.
answer_help() { # WORDS
    case ${1-} in
    help) [ $# -lt 2 ] || set -- "$2" ;;
    *)
        asked=
        for word in "$@"; do case $word in --help | -h) asked=yes ;; esac done
        [ -n "$asked" ] || return 0
        ;;
    esac
    if find_command "${1-}"; then
        printf 'usage: delaunay %s %s\n\n' "$1" "$takes"
        show_paragraphs "$1 $options"
    else
        show "$help"
    fi
    exit 0
}

# Whether a number is in the range of an option.
is_taken() { # OPTION NUMBER
    number=${2#+}
    case $number in '' | *[!0-9]* | ?????????????????*) return 1 ;; esac
    case $1 in
    --workers) [ "$number" -ge 1 ] && [ "$number" -le 64 ] ;;
    --grid) for size in 1 2 4 8 16; do [ "$number" -ne "$size" ] || return 0; done && return 1 ;;
    --alpha) [ "$number" -le 17179869183 ] ;;
    --most | --off) [ "$number" -le 16777216 ] ;;
    --count) [ "$number" -le 262140 ] ;;
    --start) [ "$number" -le 2147483647 ] ;;
    esac
}

# Sets $fault to what is wrong with the words, or to nothing, and $file to a file that is named in them, which is word
# $file_at of all.
find_fault() { # WORDS
    fault='' command='' given=' ' file='' file_at=0 at=1
    [ $# != 0 ] || { fault='a command is missing' && return; }
    find_command "$1" || { fault="$1 is no command" && return; }
    command=$1
    shift
    while [ $# != 0 ]; do
        at=$((at + 1))
        find_fault_at "$@"
        [ -z "$fault" ] || return 0
        at=$((at + used - 1))
        shift "$used"
    done
    for word in --count --start; do
        case $takes in "$word"* | *" $word"*) ;; *) continue ;; esac
        case $given in *" $word "*) ;; *) fault="$word is missing" && return ;; esac
    done
}

# Takes the name of a file, which is the program's input in place of what was given as that.
take_file() { # NAME
    if [ "$command" = gen ]; then
        fault="$1 is not taken: gen reads no file"
    elif [ -n "$file" ]; then
        fault="$1 is not taken: the input is $file already"
    elif [ -d "$1" ] || [ ! -r "$1" ]; then
        fault="$1 is no file that can be read: delaunay $command FILE, or < FILE, takes one"
    else
        file=$1 file_at=$at
    fi
}

# The same of an option with its number; $used is of how many words it is.
find_fault_at() { # WORDS
    used=1 option=${1%%=*}
    case $1 in
    -*) ;;
    *) take_file "$1" && return ;;
    esac
    case " $options " in *" $option "*) ;; *) fault="$1 is not taken" && return ;; esac
    case $given in *" $option "*) fault="$option is given twice" && return ;; esac
    given="$given$option "
    case $takes in
    *"$option "[A-Z]*)
        case $1 in
        *=*) value=${1#*=} ;;
        *) [ $# -gt 1 ] || { fault="behind $option a number is missing" && return; }
            value=$2 used=2 ;;
        esac
        is_taken "$option" "$value" || fault="$option $value is not taken"
        ;;
    *) [ "$option" = "$1" ] || fault="$1 is not taken" ;;
    esac
}

# What is added to the program's own line on status 2.
explain() {
    [ -z "$fault" ] || printf '%s\n' "$fault"
    if [ -n "$command" ]; then
        printf 'usage: delaunay %s %s\n' "$command" "$takes"
        show_paragraphs "$options"
    else
        while IFS= read -r line && [ -n "$line" ]; do printf '%s\n' "$line"; done <"$help"
        echo 'delaunay --help tells more.'
    fi
}

# What is added to the program's own line on status 5: what stands in the input, where that is a file and was read from
# its start, and what was expected.
explain_input() {
    if [ "$command" = check ]; then
        echo 'expected a report, as delaunay mesh writes it; hanskup report makes one of a mesh in another format'
    elif [ -n "$whole" ]; then
        tell_of_edit_file </proc/self/fd/0
    else
        echo 'expected an edit file: mesh3 2, points, a line X Y Z for each in whole numbers 0 to 16383, edits,' \
            'radii, end; hanskup points CLOUD makes one'
    fi
}

# Says that an edit file has no queries, of which `near` writes nothing.
explain_near() {
    IFS= read -r line </proc/self/fd/0
    case $line in
    'mesh3 4') said=$(command -v tail >/dev/null && tail -n 2 </proc/self/fd/0) ;;
    *) said=$(printf 'queries\nend') ;;
    esac
    if [ "$said" = "$(printf 'queries\nend')" ]; then
        echo 'delaunay near: the file has no queries: they stand behind its radii, in a file that begins with mesh3 4.'
    fi
}

# Whether standard input is a file that is read from its start, so that it can be read once more.
is_whole_file() {
    [ -f /proc/self/fd/0 ] && [ -r /proc/self/fdinfo/0 ] && read -r _ place </proc/self/fdinfo/0 && [ "$place" = 0 ]
}

# Runs the program and waits for it, since more is told where it refuses its words or its input, and at a terminal what
# it does. `gen` reads nothing, and takes the place of this shell.
run_program() { # PROGRAM WORDS
    program=$1
    shift
    find_fault "$@"
    if [ -z "$fault" ] && [ -n "$file" ]; then
        exec <"$file"
        at=0
        for word in "$@"; do
            at=$((at + 1))
            [ "$at" = "$file_at" ] || set -- "$@" "$word"
            shift
        done
    fi
    [ -n "$fault" ] || [ "$command" != gen ] || [ -t 2 ] || exec "$program" "$@"
    whole=''
    ! is_whole_file || whole=yes
    wait_for_program "$program" "$@"
    case $status in
    0) [ "$command" != near ] || [ -z "$whole" ] || explain_near >&2 ;;
    2) explain >&2 ;;
    5) explain_input >&2 ;;
    esac
    exit "$status"
}
