# Runs a program of this repository from wherever it is called: the proved one where it is built and newer than
# its sources, and else an answer at once from the same sources, compiled without their proofs, while the proofs run.
#
# Sourced by bash scripts at the top. The one call for them is `run_program NAME WORD..`, which ends the script.

repository=$(cd "$(dirname "${BASH_SOURCE[0]}")/.." && pwd -P)

# The crate and those of this repository that it stands on, one a line.
crates_of() {
    local todo=("$1") name seen=' '
    while ((${#todo[@]})); do
        name=${todo[0]}
        todo=("${todo[@]:1}")
        [[ $seen == *" $name "* || ! -d $repository/crates/$name ]] && continue
        seen+="$name "
        echo "$name"
        read -ra below < <(sed -n "s/^$name\( [^:]*\)\{0,1\}:\(.*\)/\2/p" "$repository/crates.txt")
        todo+=("${below[@]}")
    done
}

# The proved program is there, and nothing that it was built of has changed since. Only a proved program is ever
# left in out/. A folder that lost a file is newer too.
is_built() {
    local program=$repository/crates/$1/out/$1 name newer
    [[ -x $program && ! $repository/crates.txt -nt $program ]] || return 1
    while read -r name; do
        newer=$(cd "$repository/crates/$name" && find src specs proofs -newer "$program" -print -quit 2>/dev/null)
        [[ -z $newer ]] || return 1
    done < <(crates_of "$1")
}

# Proves and builds the program, unless that goes on already: then it waits for the other, or with -n leaves it to
# it. Answers whether the program is there.
build_proved() {
    local name=$1 folder=$repository/crates/$1
    shift
    mkdir -p "$folder/out"
    (
        flock "$@" 9 || exit 1
        is_built "$name" && exit 0
        cd "$folder" || exit 1
        touch out/build.begun
        # `rt run` also runs the program. Without words it prints a line and ends.
        rt run </dev/null >out/build.log 2>&1
        # Where no text has changed the program isn't made again, and only its time is behind.
        grep -q "^rt: running out/$name" out/build.log && touch -r out/build.begun "out/$name"
    ) 9>"$folder/out/build.lock"
    is_built "$name"
}

# Adds a word for an unproved run, which is made in a folder of its own. A file gets there as a copy under its name
# or, where that can't be, is named by its whole path. A missing file must not be found in the crate's folder.
place_word() {
    local folder=$1 word=$2
    if [[ $word == -* || $word == /* ]]; then
        :
    elif [[ ! -f $word || ! -r $word ]]; then
        [[ -z $word || ! -e $folder/$word ]] || word=$PWD/$word
    else
        case /$word/ in
        */../* | */./* | *=* | /program* | /stdin* | /stdout* | /stderr*) word=$(realpath "$word") ;;
        *) data+=(--data "$word=$(realpath "$word")") ;;
        esac
    fi
    words+=("$word")
}

# Answers from the sources, without proofs. Gives up, with no output, where that run has no answer.
run_unproved() {
    local folder=$repository/crates/$1 word said status
    local words=() data=()
    shift
    for word; do place_word "$folder" "$word"; done
    said=$(mktemp -d) || return 1
    (cd "$folder" && rt try "${data[@]}" -- "${words[@]}") </dev/null >"$said/out" 2>"$said/err"
    status=$?
    # Its own last lines say how the run went.
    if tail -n 1 "$said/err" | grep -q "^run=ended status=$status "; then
        cat "$said/out"
        sed '/^checked: ended status=[0-9]*$/d; /^run=ended status=[0-9]* /d' "$said/err" >&2
        rm -r "$said"
        exit "$status"
    fi
    rm -r "$said"
}

# Runs the program on the words and ends with its status.
run_program() {
    local name=$1 folder=$repository/crates/$1
    shift
    if ! is_built "$name"; then
        if ! command -v rt >/dev/null; then
            echo "$name: not built, and the toolchain's command rt is not in PATH" >&2
            exit 126
        fi
        echo "$name: not built yet: proving and building it in the background (crates/$name/out/build.log); this answer is the same sources compiled unproved" >&2
        (trap '' HUP && build_proved "$name" -n) </dev/null >/dev/null 2>&1 &
        run_unproved "$name" "$@"
        echo "$name: no answer that way: waiting for the proved program" >&2
        if ! build_proved "$name"; then
            echo "$name: the build failed: see $folder/out/build.log" >&2
            exit 126
        fi
    fi
    exec "$folder/out/$name" "$@"
}
