# shellcheck shell=sh disable=SC2154
# program.sh: for scripts that start a program of crates/; they source it. It proves and builds the program with the Rattle kit when
# needed, and starts it. It wants $root, the project's folder; $me, the script's name in what it says; $log, a file for what rt
# says; and a function die.
watcher=

# Says on a terminal how far a build has come, for as long as this script lives.
watch() {
    began=$(date +%s)
    while sleep 1 && kill -0 "$$" 2>/dev/null; do
        printf '\r%s: %s crates proved, %s s ' "$me" "$(grep -c '^logic=proved' "$log")" "$(($(date +%s) - began))" >&2
    done
}

watch_ends() {
    [ -n "$watcher" ] || return 0
    kill "$watcher" 2>/dev/null
    watcher=
    echo >&2
}

# Is the program there, and nothing under crates/ newer than the mark of its last build? (out/ folders are rt's own.)
is_ready() { # NAME
    [ -x "$root/crates/$1/out/$1" ] && [ -f "$root/target/$1.ready" ] &&
        [ -z "$(find "$root/crates" "$root/crates.txt" -name out -prune -o -type f -newer "$root/target/$1.ready" -print | head -n 1)" ]
}

build() { # NAME
    ready=$root/target/$1.ready
    mkdir -p "$(dirname "$log")" && : >"$log" && : >"$ready.new" || exit 2
    echo "$me: $1 is proved and built first, once; this takes minutes" >&2
    if [ -t 2 ]; then
        watch &
        watcher=$!
    fi
    # rt run proves the program and what it stands on, builds it, and starts it, here on no input.
    (cd "$root/crates/$1" && rt run) </dev/null >"$log" 2>&1
    built=$?
    watch_ends
    if [ "$built" -ne 0 ] || [ ! -x "$root/crates/$1/out/$1" ]; then
        tail -n 10 "$log" | cut -c 1-300 >&2
        die "$1 could not be built; $log has what rt said"
    fi
    mv "$ready.new" "$ready"
}

# Before the first start: the program is there.
prepare() { # NAME
    command -v rt >/dev/null || die "there is no rt on the PATH; it stands in the bin folder of the Rattle kit"
    is_ready "$1" || build "$1"
}

# Becomes the program.
start() { # NAME
    exec "$root/crates/$1/out/$1"
}
