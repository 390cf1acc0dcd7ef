# The sheet that ./plan and ./verify are given, as text or as words: kept as words in the folder `kept`, and what is said of it.

# What a forbidden combination costs, and what is said where no plan costs less.
forbidden_weight=268431361
none_allowed="every plan has a forbidden combination of spots"

# Keeps the sheet on the standard input, which is `name`, as words.
take_sheet() {
    take_input || fail "cannot read $name"
    [ ! -e "$kept/lines" ] || make_words
}

# Keeps the standard input as words or text: of words as many as the program reads, of text all. What is neither goes to the program, which
# refuses it.
take_input() {
    head -c "$most" >"$kept/input" 2>/dev/null || return 1
    if is_text "$kept/input"; then
        mv "$kept/input" "$kept/lines" && cat >>"$kept/lines"
    else
        mv "$kept/input" "$kept/words"
    fi
}

# The words of a text; where it has a fault, the line is told, and there is no answer.
make_words() {
    local fault
    command -v python3 >/dev/null 2>&1 || fail "$name is text, which needs Python 3, and python3 is not installed"
    "$here/tools/sheet" words - <"$kept/lines" >"$kept/words" 2>"$kept/fault" || {
        fault=$(cat "$kept/fault")
        fail "$name${fault#standard input}"
    }
}

# Why words are refused with this number, where the tool finds that in them.
sheet_reason() {
    local reason
    reason=$("$here/tools/sheet" why - <"$kept/words" 2>/dev/null) || return 1
    [[ $reason == *"(refusal $1)"* ]] && echo "$reason"
}

# What is said of a number alone.
unexplained() {
    echo "refused with number $1, which $command --help explains"
}
