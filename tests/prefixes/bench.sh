#!/bin/bash
# Times a program prefixes against the same questions over std's maps (tests/prefixes/peer.rs), and against grep, look and
# tre-agrep where they answer some of them: bench.sh PROGRAM [NAMES [LINES [PROCESSES]]]. It compares what both programs
# write first, on some lines, and prints for each command and program the best time of so many processes, its user time
# and its greatest memory.
set -euo pipefail
program=$(realpath "$1")
names=${2:-1000000}
lines=${3:-10000000}
processes=${4:-3}
here=$(cd "$(dirname "$0")" && pwd)
room=$(mktemp -d)
trap 'rm -rf "$room"' EXIT
cd "$room"
rustc -O --edition 2021 "$here/peer.rs" -o peer
python3 -B "$here/lists.py" "$names" "$lines" .

# Whether the first of two times is less.
is_less() { awk -v new="$1" -v old="$2" 'BEGIN { split(new, n); split(old, o); exit !(n[1] < o[1]) }'; }

timed() { # name, file of the input, words ..
    local name=$1 input=$2 best=
    shift 2
    for ((n = 0; n < processes; n++)); do
        /usr/bin/time -o figures -f '%e %U %M' "$@" < "$input" > /dev/null || true
        if [ -z "$best" ] || is_less "$(tail -n 1 figures)" "$best"; then best=$(tail -n 1 figures); fi
    done
    # shellcheck disable=SC2086
    printf '| %s | %.2f | %.2f | %d |\n' "$name" ${best% *} $((${best##* } / 1024))
}

for command in route complete block segment; do
    head -n 20000 "$command.lines" > some
    "$program" "$command" "$command.list" < some > mine
    ./peer "$command" "$command.list" < some > other
    cmp mine other
done
head -n 20000 networks.lines > some
"$program" route networks.list --cidr < some > mine
./peer networks networks.list < some > other
cmp mine other
echo "| $names names, $lines lines | seconds | user seconds | MB |"
echo '|---|---|---|---|'
for command in route complete block segment; do
    timed "$command" "$command.lines" "$program" "$command" "$command.list"
    timed "$command, std's ordered map" "$command.lines" ./peer "$command" "$command.list"
done
timed "route --cidr" networks.lines "$program" route networks.list --cidr
timed "route --cidr, std's hash map for each length" networks.lines ./peer networks networks.list
"$program" pack block.list packed
timed "block, packed" block.lines "$program" block packed
timed "block: grep -F -x -f, whole names alone" block.lines grep -F -x -f block.list
LC_ALL=C sort -o sorted complete.list
head -n 1000 complete.lines > some
timed "complete, 1,000 lines" some "$program" complete complete.list
look_up='while IFS= read -r line; do LC_ALL=C look -- "$line" sorted | head -n 10; done'
timed "complete, 1,000 lines, look for each" some bash -c "$look_up"
# the last letter but one of each line is missing
head -n 10 complete.list | sed 's/.\(.\)$/\1/' > some
timed "complete, 10 lines" some "$program" complete complete.list
timed "near -k 2, 10 lines" some "$program" near -k 2 complete.list
if command -v tre-agrep > /dev/null; then
    agrep='while IFS= read -r line; do LC_ALL=C tre-agrep -1 -- "^$line\$" complete.list; done'
    test "$("$program" near -n 1000 complete.list < some | grep -c $'^\t')" = "$(bash -c "$agrep" < some | wc -l)"
    timed "near, 10 lines" some "$program" near complete.list
    timed "near, 10 lines, tre-agrep for each" some bash -c "$agrep"
fi
