# What the benchmarks share. Sourced by bench/NAME/run, which has set $bench (its own name), from its own folder.
cd "$(dirname "$0")/../.."

# need COMMAND..: ends the benchmark where a command is not installed.
need() {
    for command; do
        if ! command -v "$command" >/dev/null; then
            echo "$bench: the command $command is not on the PATH" >&2
            exit 1
        fi
    done
}

# directory DIR: makes the folder for what a benchmark compiles and writes, and prints its absolute path.
directory() {
    mkdir -p "$1"
    (cd "$1" && pwd)
}

# build PROGRAM [ARGUMENT..]: proves and builds a program, and runs it once: with its stored input where it is given no
# arguments.
build() {
    program=$1
    shift
    echo "proving and building $program and the crates below it (half an hour or more the first time) .." >&2
    # (the input of test_scenarios is made from the files in its folder scenarios/)
    [ -f "crates/$program/stdin" ] || [ "$program" != test_scenarios ] || tools/scenarios >&2
    if [ $# -gt 0 ]; then
        (cd "crates/$program" && rt run -- "$@" >&2 </dev/null)
    else
        (cd "crates/$program" && rt run <stdin >/dev/null)
    fi
}

# compile_peer DIR: QuickFIX's engine with a book, to DIR/quickfix_venue; and in $peer whether it records (recorded),
# does not (unrecorded), or is not there (alone).
compile_peer() {
    peer=recorded
    quickfix_venue "$1" -DWITH_SQLITE -lsqlite3 && return
    echo "$bench: libsqlite3-dev is not installed: no trail of the peer" >&2
    peer=unrecorded
    quickfix_venue "$1" && return
    echo "$bench: libquickfix-dev is not installed: no peer" >&2
    peer=alone
}

# quickfix_venue DIR OPTION..: compiles it
quickfix_venue() {
    to=$1
    shift
    g++ -O2 -std=c++14 -w -o "$to/quickfix_venue" bench/serve/quickfix_venue.cpp -lquickfix -lpthread "$@" 2>/dev/null
}

# build_venue: proves and builds venue_main, unless VENUE_MAIN names another program.
build_venue() {
    [ -z "${VENUE_MAIN:-}" ] || return 0
    need rt
    build venue_main check --participants ../../examples/participants.toml --instruments ../../examples/instruments.toml
}
