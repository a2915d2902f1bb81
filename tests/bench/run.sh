#!/bin/bash
# Times the map, std's ordered map and, where Debian's libjudy-dev and libhat-trie-dev are installed, a JudySL array
# and a HAT-trie in turn, three processes each: run.sh [KEYS ...]. Where `rt lib` in crates/patricia_c has built the
# archive, it times the map as C calls it, too, over malloc. Without a number of keys it runs with 820,000 and with
# 1,000,000. Prints a table for each kind of keys, with the least of the three figures of each and the ratio to std's
# map, or of the calls from C that to the map, and says when the nodes were last relocated. After the kinds of keys of
# a number comes a table of the ratios of all of them.
#
# run.sh growth [KEYS ...] times a few lines of the map and of std's map alone, over so many titles, 10,000, 100,000 and
# 1,000,000 without a number: three processes each, and more over few keys, which are done at once.
#
# run.sh cache [KEYS] counts by valgrind's cachegrind what a look-up of the map and of std's map costs in instructions,
# branches and lines of the cache, over so many titles, 200,000 without a number. Other work on the machine changes
# nothing of that.
#
# run.sh fill [KEYS] [WORD ..] fills a map of the map's and one of std's from so many titles, 1,000,000 without a number,
# each inserted as it is read, with the values that the words name, `unit`, `u32`, `u64` and `bytes` without one; `hash`
# stands for std's hash set. A process each, whose memory and time it prints.
#
# run.sh churn [KEYS] fills both maps from so many keys of each kind, 1,000,000 without a number, removes each half of
# them and inserts it again, three times, and prints the memory of each process before and after.
#
# run.sh calls [KEYS] times the map and the map as C calls it alone, forty processes each, over so few titles that all
# lies in the cache, 2,000 without a number, and prints how many nanoseconds a call from C takes more.
set -euo pipefail
cd "$(dirname "$0")/../.."
case ${1-} in
growth | cache | fill | churn | calls) mode=$1 && shift ;;
*) mode=lines ;;
esac
if [ $# -eq 0 ]; then
    case $mode in
    lines) set -- 820000 1000000 ;;
    growth) set -- 10000 100000 1000000 ;;
    cache) set -- 200000 ;;
    fill | churn) set -- 1000000 ;;
    calls) set -- 2000 ;;
    esac
fi
room=$(mktemp -d)
trap 'rm -rf "$room"' EXIT
archive=crates/patricia_c/out/libpatricia_c.a

if [ $mode = cache ] && ! command -v valgrind > /dev/null; then
    echo "there is no valgrind" >&2
    exit 1
elif [ $mode = calls ] && [ ! -e "$archive" ]; then
    echo "$archive is not there: rt lib in crates/patricia_c makes it" >&2
    exit 1
fi

if ! (cd crates/bench_tree && rt run) < /dev/null > "$room/log" 2>&1; then
    cat "$room/log"
    exit 1
fi
cp crates/bench_tree/out/bench_tree "$room/map"
programs=(map)
if [ $mode != calls ]; then
    rustc -O --edition 2021 tests/bench/btree.rs -o "$room/btree"
    programs+=(btree)
fi
if [ $mode = lines ]; then
    if cc -O2 -o "$room/judy" tests/bench/judy.c -lJudy 2> "$room/log"; then programs+=(judy); fi
    if cc -O2 -o "$room/hat" tests/bench/hat.c -lhat-trie 2> "$room/log"; then programs+=(hat); fi
fi
if [ $mode = calls ] || { [ $mode = lines ] && [ -e "$archive" ]; }; then
    cc -O2 -Ibindings/c -o "$room/exports" tests/bench/exports.c bindings/c/heap.c "$archive"
    programs+=(exports)
fi

# Makes keys, and asks that each program answers what the map answers, on the lines that both have. The lines of the
# map and of std's map are the same.
prepare() { # number of keys, kind, line..
    local program
    # as many again are only asked for
    python3 tests/bench/keys.py "$2" $((2 * $1)) 1 > "$room/keys"
    for program in "${programs[@]}"; do
        "$room/$program" counts "${@:3}" < "$room/keys" > "$room/$program.answers"
        awk 'NR == FNR { answer[$1] = $2; next } ($1 in answer) && answer[$1] != $2 { print; bad = 1 } END { exit bad }' \
            "$room/map.answers" "$room/$program.answers"
    done
    [ $mode = calls ] || cmp "$room/map.answers" "$room/btree.answers"
}

# Runs each program in turn, so many times, and then says when the nodes are last relocated: each line with the number
# of keys, their kind and the program.
figures() { # number of keys, kind, times, line..
    local program
    for _ in $(seq "$3"); do
        for program in "${programs[@]}"; do
            "$room/$program" times "${@:4}" < "$room/keys" | sed "s/^/$1 $2 $program /"
        done
    done
    "$room/map" age < "$room/keys" | sed "s/^/$1 $2 map /"
}

# Counts the events of a program that fills the map and does what a line tells of.
events() { # number of keys, kind, program, line
    local name=$room/$3-$4
    valgrind --tool=cachegrind --cache-sim=yes --branch-sim=yes --I1=32768,8,64 --D1=32768,8,64 --LL=1048576,16,64 \
        --cachegrind-out-file="$name" "$room/$3" counts "$4" < "$room/keys" > "$name.log" 2>&1 ||
        { cat "$name.log" >&2; return 1; }
    awk -v line="$1 $2 $3 $4" '
        /^events:/ { for (i = 2; i <= NF; i++) event[i] = $i }
        /^summary:/ { for (i = 2; i <= NF; i++) print line ":" event[i], $i }' "$name"
}

# Counts the events of all programs, at once, and says when the nodes are last relocated.
all_events() { # number of keys, kind
    local program line job jobs=()
    for program in "${programs[@]}"; do
        # valgrind may not know the form of debug information
        strip "$room/$program"
        for line in insert get get_absent longest; do
            events "$1" "$2" "$program" "$line" > "$room/$program-$line.events" &
            jobs+=($!)
        done
    done
    for job in "${jobs[@]}"; do wait "$job"; done
    cat "$room"/*.events
    "$room/map" age < "$room/keys" | sed "s/^/$1 $2 map /"
}

# Fills maps with values that a word names: each line with the number of keys, the word and the program.
fills() { # number of keys, word
    local program
    for program in map btree; do
        [ "$program $2" = 'map hash' ] || "$room/$program" fill "$2" < "$room/keys" | sed "s/^/$1 $2 $program /"
    done
}

if [ $mode = fill ]; then
    python3 tests/bench/keys.py titles "$1" 1 > "$room/keys"
    words=("${@:2}")
    [ ${#words[@]} -ne 0 ] || words=(unit u32 u64 bytes)
    for word in "${words[@]}"; do fills "$1" "$word"; done > "$room/figures"
    python3 tests/bench/tables.py fill < "$room/figures"
    exit
fi

if [ $mode = churn ]; then
    for kind in titles domains hex; do
        python3 tests/bench/keys.py $kind $((2 * $1)) 1 > "$room/keys"
        for program in map btree; do
            "$room/$program" churn < "$room/keys" | sed "s/^/$1 $kind $program /"
        done
    done > "$room/figures"
    python3 tests/bench/tables.py churn < "$room/figures"
    exit
fi

for count in "$@"; do
    case $mode in
    lines)
        for kind in titles domains hex; do
            prepare "$count" $kind
            figures "$count" $kind 3 > "$room/figures-$kind"
            python3 tests/bench/tables.py lines < "$room/figures-$kind"
        done
        cat "$room"/figures-{titles,domains,hex} | python3 tests/bench/tables.py ratios
        ;;
    growth)
        prepare "$count" titles get get_absent scan
        figures "$count" titles $((3 + 1000000 / count)) get get_absent scan >> "$room/figures"
        ;;
    cache)
        prepare "$count" titles get get_absent longest
        all_events "$count" titles > "$room/figures"
        python3 tests/bench/tables.py cache < "$room/figures"
        ;;
    calls)
        prepare "$count" titles
        figures "$count" titles 40 | python3 tests/bench/tables.py calls
        ;;
    esac
done
if [ $mode = growth ]; then python3 tests/bench/tables.py growth < "$room/figures"; fi
