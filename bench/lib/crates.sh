# What the scripts share; to be sourced, with `top` set to the top of the repository.

# The crates of this repository that a crate uses, directly or through others, the lowest first, each on a line with those that it uses itself.
below() {
    awk -F: -v name="$1" '
        function walk(crate, uses, n, i) {
            n = split(used[crate], uses, " ")
            for (i = 1; i <= n; i++)
                if (uses[i] in used && !(uses[i] in seen)) { seen[uses[i]]; walk(uses[i]); print uses[i], used[uses[i]] }
        }
        { sub(/#.*/, ""); split($1, head, " ") }
        head[1] != "" { used[head[1]] = $2 }
        END { walk(name) }' "$top/crates.txt"
}

# The file that a program is built as.
built() {
    echo "$top/crates/$1/out/$1"
}

# Whether a program is not built, or a source of it or of a crate below it is newer than what was built.
is_old() {
    local program
    program=$(built "$1")
    [ ! -x "$program" ] || [ "$top/crates.txt" -nt "$program" ] ||
        [ -n "$(cd "$top/crates" && find "$1" $(below "$1" | cut -d' ' -f1) \
            \( -name out -o -name must-fail -o -name README.md \) -prune -o -type f -newer "$program" -print -quit)" ]
}
