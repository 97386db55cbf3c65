# How a program runs that is not built: without a proof, by `rt try`; to be sourced, with `top` set to the top of the repository.

most_input=$((64 << 20))

# The toolchain that README names.
wanted_toolchain() {
    grep -o 'rattle-kit-[^`]*' "$top/README.md" | head -n 1
}

# Says of a program's run that the toolchain on the path is another than README names, where it is.
say_toolchain() {
    local name=$1 wanted found
    wanted=$(wanted_toolchain)
    found=$(rt version 2>&1 || true)
    [ "$found" = "$wanted" ] || echo "$name: the toolchain is '$found', and README names '$wanted': its verdicts may differ" >&2
}

# What `rt try` wrote to standard error without the two lines that it adds where the program ended.
program_errors() {
    head -n -1 "$1" | sed '${/^checked: ended /d}'
}

# Writes them, with a folder that was given by a relative path as it was given.
show_errors() {
    local text
    text=$(program_errors "$1" && echo .)
    text=${text%.}
    [ -z "${given-}" ] || text=${text//"$PWD/$given"/"$given"}
    printf '%s' "$text"
}

# Says why a run gave no answer, from what `rt try` wrote to standard error, and what to do.
explain() {
    local name=$1 errors=$2 reason
    reason=$(sed -n 's/^checked: no-answer: //p' "$errors" | tail -n 1)
    case $reason in
    "the program did not end within"*) reason="it had not ended after 60 seconds" ;;
    "the program wrote more than"*) reason="it wrote more than 1 MiB" ;;
    "") cat "$errors" >&2 && reason="see above" ;;
    esac
    echo "$name: no answer from the run without a proof: $reason; ./build first, and the built program has no such bound" >&2
}

# run_unproved NAME WORDS..: runs a program of crates/NAME/ on words. Standard output and the status are the program's own; where the run gives no
# answer, nothing is written to standard output, and the status is 3. Standard input is the file `input`.
run_unproved() {
    local name=$1 input=$2 work=$3 asked status
    shift 3
    if ! command -v rt >/dev/null; then
        echo "$name: the toolchain's command rt is not on the path, and both this run and ./build need it ($(wanted_toolchain))" >&2
        return 3
    fi
    echo "$name: not built, or older than its sources: this run is not proved and takes about a minute; ./build proves and builds it, and then each call starts at once" >&2
    if [ "$(stat -L -c %s "$input")" -gt "$most_input" ]; then
        echo "$name: the run without a proof reads at most 64 MiB of standard input; ./build first, and the built program has no such bound" >&2
        return 3
    fi
    # The toolchain is asked which one it is beside the run.
    say_toolchain "$name" </dev/null &
    asked=$!
    (cd "$top/crates/$name" && rt try -- "$@") <"$input" >"$work/output" 2>"$work/errors" || true
    wait "$asked" || true
    status=$(tail -n 1 "$work/errors" | sed -n 's/^run=ended status=\([0-9]*\) .*proved=no$/\1/p')
    if [ -z "$status" ]; then
        explain "$name" "$work/errors"
        return 3
    fi
    show_errors "$work/errors" >&2
    cat "$work/output"
    return "$status"
}
