# What ./ems, ./step-log, host/library, host/test and host/bench share: is a file stale, a build that keeps its lines to
# itself, and what to do where something is missing. To be sourced; $me is who speaks.

checkout=$(dirname "$(dirname "$(readlink -f "${BASH_SOURCE[0]}")")")

# Where a build's own lines go.
build_log=$checkout/target/$me-build.log

# What builds the tool, and the Debian package it comes in. Cargo looks for what any crate in host needs, its
# tests too, whichever it builds.
registry=/usr/share/cargo/registry
tool_needs=(
    "cc gcc"
    "$registry/assert_cmd-2* librust-assert-cmd-dev"
    "$registry/clap-4.* librust-clap-dev"
    "$registry/clap_derive-4.* librust-clap-derive-dev"
    "$registry/ctor-0.1.* librust-ctor-dev"
    "$registry/indicatif-0.17.* librust-indicatif-dev"
    "$registry/quickcheck-1* librust-quickcheck-dev"
    "$registry/roxmltree-0.16* librust-roxmltree-dev"
    "$registry/tempfile-3* librust-tempfile-dev"
    "$registry/unicode-width-0.1.* librust-unicode-width-dev"
)

say() {
    echo "$me: $*" >&2
}

# Whether a command is on the path, or a file of such a name is there.
there() {
    command -v "$1" >/dev/null || compgen -G "$1" >/dev/null
}

# The packages of those needs ("WHAT PACKAGE") that aren't there.
missing() {
    local need
    for need in "$@"; do
        there "${need%% *}" || echo "${need##* }"
    done
}

# Installs what isn't there of those needs, where that can be done.
install_missing() {
    local packages
    mapfile -t packages < <(missing "$@")
    if [ ${#packages[@]} -gt 0 ] && there apt-get && [ "$(id -u)" = 0 ]; then
        { apt-get update && apt-get install -y "${packages[@]}"; } >&2 || true
    fi
}

# The end, where something is missing: a failure in the gate, and none elsewhere.
without() {
    say "not run, $1"
    [ "${CI:-}" != true ] || exit 1
    exit 0
}

# Goes on if Cargo and all of those needs are there.
require() {
    local package
    there cargo || without "cargo isn't there: it comes with Rust"
    for package in $(missing "$@"); do
        without "Debian's $package isn't there"
    done
}

# Goes on with the proved library, built again where a source is newer.
require_library() {
    local library=$checkout/target/staticlib/libflight.a
    if [ -z "${EMS_LIB_DIR:-}" ] && stale "$library" "$checkout"/{crates,crates.txt}; then
        there rt || without "rt isn't there, and $library is missing or old"
        prove_library
    fi
}

# Proves flight_c and all below it, and makes target/staticlib/libflight.a of it, for any x86-64 processor: rt's own choice
# asks more of one.
prove_library() {
    (cd "$checkout/crates/flight_c" && rt lib --cpu=x86-64) &&
        place crates/flight_c/out/libflight_c.a target/staticlib/libflight.a
}

# Proves step_log and all below it, and makes target/bin/step_log of it. rt builds a program only to run it: on no frames.
prove_step_log() {
    (cd "$checkout/crates/step_log" && rt run </dev/null) &&
        place crates/step_log/out/step_log target/bin/step_log
}

# Copies a file of the checkout to another place, all at once: rt sets what it made aside at times.
place() { # FROM TO
    mkdir -p "$checkout/${2%/*}" &&
        cp "$checkout/$1" "$checkout/$2.new" &&
        mv "$checkout/$2.new" "$checkout/$2"
}

# Whether a file is missing, or older than a file among and under those named after it. An out/ is rt's own.
stale() {
    [ ! -f "$1" ] || [ -n "$(find "${@:2}" -name out -prune -o -type f -newer "$1" -print -quit 2>/dev/null)" ]
}

# Whether a build can write here; if so, the file of its lines begins anew.
writable() {
    mkdir -p "$checkout/target" && true >"$build_log"
} 2>/dev/null

# Runs a command in the checkout, with its lines in a file; where a person watches, says how long it is at it. If it
# fails, that is the end, and the file is named.
quietly() {
    local status=0
    if [ -t 2 ]; then
        start_clock
    fi
    (cd "$checkout" && "$@") </dev/null >>"$build_log" 2>&1 || status=$?
    if [ -t 2 ]; then
        stop_clock
    fi
    [ "$status" = 0 ] || failed
}

# Shows the minutes and seconds since the start, until it is stopped or this process is gone.
start_clock() {
    while sleep 1 && kill -0 $$ 2>/dev/null; do
        printf '\r%s: %d:%02d' "$me" $((SECONDS / 60)) $((SECONDS % 60)) >&2
    done &
    clock=$!
    trap stop_clock EXIT
}

stop_clock() {
    trap - EXIT
    kill "$clock" 2>/dev/null || true
    wait "$clock" 2>/dev/null || true
    printf '\r\033[K' >&2
}

# The end of a build that didn't succeed.
failed() {
    say "the build failed; $build_log ends with:"
    tail -n 15 "$build_log" >&2
    exit 1
}

# Makes a file by a command, after saying what is done. The file is then as old as the command's begin, whether there
# was anything to do or not: a source that changed in the meantime is newer.
build() { # FILE SAID COMMAND..
    local begun
    begun=$(date +%s.%N)
    say "$2"
    quietly "${@:3}"
    touch -c -d "@$begun" "$1"
    [ -f "$1" ] || failed
}

# Goes on with a stale file that can't be built, if there is one.
keep() { # FILE WHY
    if [ ! -f "$1" ]; then
        say "$1 isn't there, and $2"
        exit 1
    fi
    say "$1 is out of date, and $2: it is used as it is"
}
