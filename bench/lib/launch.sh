# How ./zarrs and ./zarrs_tool start their program; to be sourced, with `top` set to the top of the repository.

source "$top/bench/lib/crates.sh"
source "$top/bench/lib/unproved.sh"

# launch NAME PLACE WORDS..: starts the program NAME on the words: proved, where ./build has built it since its sources changed; else the same words run
# without a proof. PLACE is the number of the word that names a folder, 0 where none does, and - where an image is read from standard input.
launch() {
    local name=$1 place=$2 input=/dev/null words
    shift 2
    is_old "$name" || exec "$(built "$name")" "$@"
    words=("$@")
    work=$(mktemp -d)
    trap 'rm -rf "$work"' EXIT
    case $place in
    # An image is read to its end first, however slowly it comes.
    -) input=$work/input && cat >"$input" ;;
    0) ;;
    # The program runs in another folder.
    *)
        given=${words[place - 1]}
        case $given in
        "" | /*) unset given ;;
        *) words[place - 1]=$PWD/$given ;;
        esac
        ;;
    esac
    run_unproved "$name" "$input" "$work" "${words[@]}"
}
