#!/bin/sh
# Refuses each allocation of this program in turn: each run must print what `stdout` holds. The allocation that is refused has the same
# number in all runs; the program makes as many before its own as its input has bytes. With no input, none of its own may be refused.
# Where the input begins with a 1, the calls are left out that take no memory: the program must make as many allocations as with them.
number=740
cd "$(dirname "$0")" || exit 2
folder=$(mktemp -d) || exit 2
trap 'kill $tries 2>/dev/null; rm -r "$folder"' EXIT
trap 'exit 143' TERM HUP INT

# The cases of a folder, in the background; what is said of them goes to a file beside it.
try() {
    rt try --fail-alloc "$number" "$@" --cases "$folder/$of" > "$folder/$of.said" 2>&1 < /dev/null &
    tries="$tries $!"
}

# An input of so many bytes, and what is printed.
input() {
    head -c "$3" /dev/zero | tr '\0' "$4" > "$folder/$1/$2"
    cp stdout "$folder/$1/$2.stdout"
}

mkdir "$folder/counted" "$folder/dealt_0" "$folder/dealt_1" "$folder/dealt_2"
input counted all_calls 1 '\0'
input counted without_some 1 '\1'
count=0
while [ "$count" -le "$number" ]; do
    input "dealt_$((count % 3))" "$(printf 'before_%03d' "$count")" "$count" '\0'
    count=$((count + 1))
done
# One step of the slow runner, which counts allocations, leaves it out.
of=counted; try
for of in dealt_0 dealt_1 dealt_2; do try --steps 1; done
wait
tries=

allocations() { sed -n "/^case=/d; s/^allocations: //p" "$folder/counted.said" | sed -n "$1p"; }
all=$(allocations 1)
without_some=$(allocations 2)
grep -h '^case=' "$folder"/*.said | grep -v 'ended status=0 .*output=expected'
as_wanted=$(cat "$folder"/dealt_*.said | grep -c '^case=.*=ended status=0 .*output=expected')
echo "$as_wanted of $count runs answered as wanted; the program makes $((all - 1)) allocations, and $((without_some - 1)) without some calls"
[ "$as_wanted" -eq "$count" ] && [ "$all" -gt 1 ] && [ "$all" -le "$number" ] && [ "$all" -eq "$without_some" ] &&
    [ "$(grep -c '^case=.*=ended status=0 .*output=expected' "$folder/counted.said")" -eq 2 ] || {
    for of in counted dealt_0 dealt_1 dealt_2; do tail -n 3 "$folder/$of.said"; done
    exit 1
}
