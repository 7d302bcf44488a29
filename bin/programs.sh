# What the scripts that run a proved program share. A script reads this with `top` set to the top of the
# repository and `name` to its own name. A program is named as its crate, and lies in crates/NAME/out/NAME.

# The sources that changed after a program was built.
newer_sources() {
    find "$top/crates.txt" "$top"/crates/*/src "$top"/crates/*/specs "$top"/crates/*/proofs -newer "$1"
}

# Whether a program is there, and no source of any crate is newer.
is_built() {
    [ -x "$1" ] && [ -z "$(newer_sources "$1" | head -n 1)" ]
}

# Proves and builds the program of a crate and the crates below it. No command of the kit builds a program
# and doesn't run it, so the crate's stored run is made on the way. The program gets the time at which the
# build began, since a source may change while it goes on.
build() {
    began=$(TZ=UTC0 date +%Y%m%d%H%M.%S)
    (
        cd "$top/crates/$1" || exit 1
        words=
        [ ! -f args ] || words="-- $(cat args)"
        # shellcheck disable=SC2086 # a word of the stored run has no space
        rt run $words <stdin >/dev/null
    ) || return 1
    TZ=UTC0 touch -t "$began" "$top/crates/$1/out/$1"
}

# Sets `program` to the program of a crate. Where it is missing, or older than a source of any crate, it is
# proved and built first, and what the build says goes to standard error; standard input stays whole. Where
# the build fails, the status is 70, which is none of a program's own.
provide() {
    program=$top/crates/$1/out/$1
    if is_built "$program"; then
        return
    fi
    echo "$name: proving and building the program; the first time this takes minutes" >&2
    if ! build "$1"; then
        echo "$name: the program was not built" >&2
        exit 70
    fi
    echo "$name: built crates/$1/out/$1" >&2
}

# Runs the program with this word on standard input, of which it reads so many bytes at most and one more,
# and ends with its status. What it writes is kept aside, so that a refusal can be told in words on standard
# error. An input that isn't in a file is kept too, up to the byte that makes it too long.
run_telling() {
    kept=$(mktemp -d) || exit 70
    trap 'rm -rf "$kept"' EXIT
    scenario=/dev/stdin
    if [ ! -f /dev/stdin ]; then
        scenario=$kept/scenario
        head -c $(($2 + 1)) >"$scenario" || exit 2
    fi
    "$program" "$1" <"$scenario" >"$kept/written"
    status=$?
    cat "$kept/written" || exit 4
    if [ "$status" -eq 3 ]; then
        "$top/bin/ule-refusal" "$(cat "$kept/written")" "$scenario"
    fi
    exit "$status"
}
