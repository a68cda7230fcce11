# Shared by the parts of the bench: where the programs are, and how a run is timed.

oracle=oracle/target/release/oracle
# Each may be given with arguments, as in REPLAY='other/program run'.
read -ra stripbook <<<"${STRIPBOOK:-crates/stripbook/out/stripbook}"
read -ra replay <<<"${REPLAY:-crates/replay/out/replay}"
read -ra striproom <<<"${STRIPROOM:-crates/striproom/out/striproom}"
read -ra shorten <<<"${SHORTEN:-crates/shorten/out/shorten}"

work=$(mktemp -d)
trap 'rm -rf "$work"' EXIT
TIMEFORMAT='%U %S %R'

# Builds the oracle for release, and installs what is missing from Debian's packages.
prepare() {
    local tool
    for tool in cargo sqlite3; do
        if ! command -v "$tool" >/dev/null 2>&1; then
            apt-get update -qq >&2
            apt-get install -y -qq "$tool" >&2
        fi
    done
    (cd oracle && cargo build --release --offline --quiet)
}

# LOG IN OUT COMMAND...: runs the command; its processor time and elapsed time, in seconds, go behind the log.
timed() {
    local log=$1 in=$2 out=$3
    shift 3
    { time "$@" <"$in" >"$out" 2>&3; } 3>&2 2>>"$log"
}

# LOG: the median of processor times, and of elapsed times.
medians() {
    local middle=$(($(wc -l <"$1") / 2 + 1))
    echo "$(awk '{ print $1 + $2 }' "$1" | sort -g | sed -n "${middle}p")" \
        "$(awk '{ print $3 }' "$1" | sort -g | sed -n "${middle}p")"
}

# LOG: the least processor time.
least() {
    awk '{ print $1 + $2 }' "$1" | sort -g | head -n 1
}

# FILE ARGUMENTS..: a script of the oracle; where `earlier` names another oracle, one of that beside it.
write() {
    local file=$1
    shift
    "$oracle" script "$@" >"$file"
    if [ -n "${earlier:-}" ]; then "$earlier" script "$@" >"$file.earlier"; fi
}

# NAME IN FIRST SECOND: two programs, each one word with its arguments, play a script after another and must give the same
# answers. With an earlier oracle the first plays that one's script, and the answers are others. Their times go behind
# NAME-first.log and NAME-second.log.
race() {
    local first second in=$2
    if [ -n "${earlier:-}" ]; then in=$2.earlier; fi
    read -ra first <<<"$3"
    read -ra second <<<"$4"
    timed "$work/$1-first.log" "$in" "$work/want" "${first[@]}"
    timed "$work/$1-second.log" "$2" "$work/got" "${second[@]}"
    [ -n "${earlier:-}" ] || cmp "$work/want" "$work/got" || { echo "other answers by $4 than by $3" >&2; exit 1; }
}

# LETTER CHAIN: how often a call is made, so that it takes some tenths of a second.
count() {
    case $1 in
        O) echo 4000 ;;
        Q) echo $((30000000 / ($2 + 60))) ;;
        L) echo $((6000000 / ($2 + 10) / (1 + $2 / 240))) ;;
        *) echo 400000 ;;
    esac
}

# LETTER L D CHAIN FIRST SECOND: microseconds a call, by the first program and by the second.
measure() {
    local n without=M size=(--log "$2" --pages "$3" --chain "$4") program script
    n=$(count "$1" "$4")
    write "$work/with" --growth "$1" "${size[@]}" --calls "$n"
    if [ "$1" = P ]; then without=Z; fi
    write "$work/without" --growth "$without" "${size[@]}" --calls "$([ "$1" = P ] && echo "$n" || echo 0)"
    rm -f "$work"/*.log
    for _ in $(seq "$turns"); do
        for script in with without; do
            race "$script" "$work/$script" "$5" "$6"
        done
    done
    for program in first second; do
        awk -v with="$(least "$work/with-$program.log")" -v without="$(least "$work/without-$program.log")" -v n="$n" \
            'BEGIN { printf "%.3f ", (with - without) / n * 1000000 }'
    done
}
