# What is wrong with a file that is no edit file, in words: its first line that no edit file has there, what stands in
# it and what was expected. The program has refused the file already; this reads it once more, by docs/FORMATS.md.
#
# Sourced beside words.sh. It calls nothing but the shell.
# shellcheck shell=sh disable=SC2154

a_point='three whole numbers 0 to 16383, with one space between two of them'

# Tells of the file on standard input.
tell_of_edit_file() {
    number=0 lines=0 section=head next='' most=16383
    while IFS= read -r line || [ -n "$line" ]; do
        number=$((number + 1))
        find_expected
        [ -z "$expected" ] || { tell_of_line && return; }
    done
    wanted='more lines, and end as the last'
    [ "$section" != head ] || wanted='mesh3 1, 2, 3 or 4, as an edit file begins'
    echo "line $((number + 1)): the file ends here: expected $wanted"
}

tell_of_line() {
    back=$(printf '\r')
    case $line in
    *"$back") echo "line $number ends with \\r, as lines of Windows do: sed 's/\\r\$//' FILE takes that away" ;;
    *)
        stands=$line
        [ "${#line}" -le 60 ] || stands="$(printf %.57s "$line").."
        echo "line $number: \`$stands\`: expected $expected"
        ;;
    esac
}

# Sets $expected to what was expected in place of the line, or to nothing, and goes on to the next section.
find_expected() {
    expected=''
    case $section in
    head)
        case $line in
        'mesh3 1' | 'mesh3 2') version=${line#mesh3 } most=1073741823 section=second ;;
        'mesh3 3' | 'mesh3 4') version=${line#mesh3 } most=17179869183 section=second ;;
        *) expected='mesh3 1, 2, 3 or 4, as an edit file begins; hanskup points CLOUD makes one' ;;
        esac
        ;;
    second) [ "$line" = points ] && section=points next=edits || expected='the word points' ;;
    points | edits | radii | queries)
        if [ "$line" = "$next" ]; then
            go_on
        else
            find_expected_within
        fi
        ;;
    *) expected='nothing more behind end' ;;
    esac
}

go_on() {
    case $line in
    edits) section=edits next=radii ;;
    radii) section=radii next=end lines=0 && [ "$version" != 4 ] || next=queries ;;
    queries) section=queries next=end lines=0 ;;
    end) section=behind ;;
    esac
}

find_expected_within() {
    lines=$((lines + 1))
    case $section in
    points)
        expected="$a_point, or the word edits"
        is_places 3 "$line" && expected=''
        ;;
    edits)
        expected="+ or - and $a_point, or from version 2 on = and two such places, or the word radii"
        case $line in
        '+ '* | '- '*) is_places 3 "${line#??}" && expected='' ;;
        '= '*) [ "$version" = 1 ] || ! is_places 6 "${line#??}" || expected='' ;;
        esac
        ;;
    radii)
        expected="a whole number 0 to $most, which is a squared radius, or the word $next"
        is_number "$line" "$most" && expected=''
        [ "$lines" -le 16 ] || expected="the word $next, since 16 radii are the most"
        ;;
    queries)
        expected="$a_point, or the word end"
        is_places 3 "$line" && expected=''
        [ "$lines" -le 65536 ] || expected='the word end, since 65536 queries are the most'
        ;;
    esac
    case $section in
    points | edits) [ "$lines" -le 262144 ] || expected="the word $next, since 262144 such lines are the most" ;;
    esac
}

# Whether a text is so many numbers of coordinates, with one space between two of them.
is_places() { # COUNT TEXT
    case $2 in *'  '* | ' '* | *' ' | *[!0-9\ -]*) return 1 ;; esac
    rest=$2 count=0
    while [ -n "$rest" ]; do
        count=$((count + 1))
        is_number "${rest%% *}" 16383 || return 1
        case $rest in *' '*) rest=${rest#* } ;; *) rest='' ;; esac
    done
    [ "$count" = "$1" ]
}

# Whether a word is a whole number from 0 to a limit.
is_number() { # WORD LIMIT
    digits=${1#-}
    case $digits in '' | *[!0-9]*) return 1 ;; esac
    while [ "${#digits}" -gt 15 ] && [ "${digits#0}" != "$digits" ]; do digits=${digits#0}; done
    [ "${#digits}" -le 15 ] || return 1
    [ "${1#-}" = "$1" ] || [ "$digits" -eq 0 ] || return 1
    [ "$digits" -le "$2" ]
}
