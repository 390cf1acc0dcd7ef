# What the commands say on the standard error. Each sets `command`, its name, before it takes this file in.

# A closed or full standard error changes no answer and no status.
say() {
    echo "$command: $1" >&2 2>/dev/null || true
}

fail() {
    say "$1"
    exit 1
}
