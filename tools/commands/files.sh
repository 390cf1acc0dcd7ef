# The files that a command makes: those that it keeps for a while, and the one that it puts in place for the user.

# A file that is on its way to its place.
placed=

# Makes the folder `kept`; it goes when the command ends, and so does what is not yet in place.
make_kept() {
    kept=$(mktemp -d 2>/dev/null) || fail "no temporary file can be made"
    trap 'rm -rf -- "$kept" ${placed:+"$placed"}' EXIT
}

# A new file, of which the second argument says what it is, can be put in place: its name is free or an ordinary file's, but not that of the
# file that is read, in a folder that takes it.
check_new() {
    local folder
    [ ! -d "$1" ] || fail "$1 is a directory"
    [ ! "$1" -ef /dev/stdin ] || fail "$1 is the file that is read; $2 needs a file of its own"
    [ ! -e "$1" ] || [ -f "$1" ] || fail "$1 is no ordinary file"
    folder=$(dirname -- "$1")
    [ -d "$folder" ] || fail "there is no directory $folder"
    [ -w "$folder" ] || fail "cannot write $1"
}

# Puts a kept file in place: under another name in the same folder first, so that there is never a part of it under its own.
put_in_place() {
    {
        placed=$(mktemp -- "$(dirname -- "$2")/.$command.XXXXXX") &&
            chmod "$(printf '%o' "$((0666 & ~0$(umask)))")" -- "$placed" &&
            cat "$1" >"$placed" &&
            mv -fT -- "$placed" "$2"
    } 2>/dev/null || fail "cannot write $2"
    placed=
}

# A number as the four bytes of a word, little-endian.
put_word() {
    printf '%b' "$(printf '\\x%02x' "$(($1 & 255))" "$(($1 >> 8 & 255))" "$(($1 >> 16 & 255))" "$(($1 >> 24))")"
}
