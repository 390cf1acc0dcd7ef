# A file that a command reads, and what it holds. `usage` prints a command's help.

# One byte more than a sheet's words may have; so much of a file tells its form.
most=64001

# Opens the named file as the standard input and sets `name`; what cannot be read is told. Help is printed.
open_input() {
    [ $# -eq 1 ] || fail "usage: $command FILE, or $command - for the standard input; $command --help says more"
    name=$1
    case $1 in
        -h | --help)
            usage
            exit 0
            ;;
        -)
            name="standard input"
            [ -e /dev/stdin ] || fail "the standard input is closed"
            return
            ;;
    esac
    [ -e "$1" ] || fail "there is no file $1"
    [ ! -d "$1" ] || fail "$1 is a directory"
    { [ -r "$1" ] && exec <"$1"; } 2>/dev/null || fail "cannot read $1"
}

# Whether a file holds text. Words that begin with a head have a control byte at place 3, and words of nearly every kind have zero bytes; what
# is shorter than a word is too short for a line of a sheet. tools/sheets/forms.py has the same rule in Python, which need not be there.
is_text() {
    local strange
    [ "$(head -c 4 "$1" | wc -c)" -eq 4 ] || return 1
    strange=$({ head -c 4 "$1" | LC_ALL=C tr -d '\t\n\r\040-\377'; head -c "$most" "$1" | LC_ALL=C tr -dc '\000'; } | wc -c)
    [ "$strange" -eq 0 ]
}
