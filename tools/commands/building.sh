# Proves and builds the program of a command where that has not been done since the last change. The command sets `here`, the repository.

# Says which crate's program is used; what is built of it is marked and logged under the second name, or the command's.
use_program() {
    crate=$1
    marked=${2:-$command}
    program=$here/target/bin/$crate
    built=$here/target/$marked.built
}

# What has changed since the program's build began. A crate's folder out is made by rt and is no source, and neither is the time of the folder that
# it lies in.
changed() {
    (cd "$here" && find crates crates.txt -regex 'crates/[^/]*/out' -prune -o \( -type f -o -path 'crates/*/*' \) -newer "$built" -print -quit)
}

# The program is there, and no source has changed since its build began.
current() {
    [ -x "$program" ] && [ -e "$built" ] && [ -z "$(changed)" ]
}

# How many crates the program stands on, itself included: those that its line in crates.txt leads to.
crate_count() {
    awk -v crate="$crate" '
        function reach(name, parts, count, at) {
            if (!(name in taken) || (name in reached)) return
            reached[name] = 1
            total++
            count = split(taken[name], parts, " ")
            for (at = 1; at <= count; at++) reach(parts[at])
        }
        { sub(/#.*/, ""); name = $1; sub(/:$/, "", name); $1 = ""; if (name != "") taken[name] = $0 }
        END { reach(crate); print total }' "$here/crates.txt"
}

# Tells the crates proved so far of how many, from the lines of rt run: in one line on a terminal, else in a line each.
progress() {
    local total=$1 proved=0 line
    while IFS= read -r line; do
        [[ $line == "logic=proved "* ]] || continue
        proved=$((proved + 1))
        if [ -t 2 ]; then
            printf '\r%s: %d of %d crates proved' "$command" "$proved" "$total" >&2
        else
            say "$proved of $total crates proved"
        fi
    done
    [ ! -t 2 ] || [ "$proved" -eq 0 ] || echo >&2
}

# The toolchain proves and builds the program and runs it once. It gets the crate's own input, since the standard input may be the file that the
# program is to read.
build() {
    command -v rt >/dev/null 2>&1 || fail "the Rattle toolchain's command rt is not installed"
    say "proving and building the program; the first time takes some minutes"
    mkdir -p "$here/target/bin"
    touch "$built.new"
    { (cd "$here/crates/$crate" && rt run <stdin 2>&1 >/dev/null) | tee "$here/target/$marked.log" | progress "$(crate_count)"; } &&
        cp -f "$here/crates/$crate/out/$crate" "$program" ||
        fail "the program could not be proved and built; see target/$marked.log"
    mv "$built.new" "$built"
}
