#!/usr/bin/env bash
# What regions cost: instructions (counted by valgrind's callgrind) and microseconds of the built program, over frames
# that are made here. It prints figures and judges nothing.
#
#     bench/regions.sh
#
# Each line has the cost of one more of something: the difference of two runs, by how many more there were.
cd "$(dirname "$0")/.." || exit 1
program=crates/texd/out/texd
[ -x "$program" ] || bash run.sh > /dev/null || exit 1
work=$(mktemp -d) && trap 'rm -rf "$work"' EXIT

# frame BUDGET TEXT: a frame
frame() { printf 'REGION %s %s\n%s' "$1" "${#2}" "$2"; }

# repeated COUNT TEXT: the text so many times
repeated() { for ((i = 0; i < $1; i++)); do printf '%s' "$2"; done; }

# times COUNT FILE: the file so many times
times() { for ((i = 0; i < $1; i++)); do cat "$2"; done; }

# names COUNT: regions that define so many names, a thousand in each
names() {
    awk -v n="$1" 'BEGIN {
        for (i = 0; i < n; i++) {
            name = ""; k = i
            for (j = 0; j < 4; j++) { name = name sprintf("%c", 97 + k % 26); k = int(k / 26) }
            text = text "\\def\\" name "{x}"
            if (i % 1000 == 999 || i == n - 1) { printf "REGION 1000000 %d\n%s", length(text), text; text = "" }
        }
    }'
}

# instructions FILE: of a run on this input
instructions() {
    valgrind --tool=callgrind --callgrind-out-file="$work/out" "$program" once < "$1" 2>&1 > /dev/null |
        awk '/Collected/ { print $NF }'
}

# more TITLE COUNT FEW MANY: the instructions of one more
more() {
    local few many
    few=$(instructions "$3") && many=$(instructions "$4")
    awk -v t="$1" -v n="$2" -v a="$few" -v b="$many" 'BEGIN { printf "%-58s %12.0f instructions\n", t, (b - a) / n }'
}

# clock TITLE COUNT FILE: the microseconds of one of so many
clock() {
    local from to
    from=$(date +%s%N) && "$program" once < "$3" > /dev/null && to=$(date +%s%N)
    awk -v t="$1" -v n="$2" -v d="$((to - from))" 'BEGIN { printf "%-58s %12.2f microseconds\n", t, d / n / 1000 }'
}

frame 1000 '\message{x}' > "$work/message"
frame 1000000 "$(repeated 1000 '\def\a{x}')" > "$work/thousand"
frame 1000000 "$(repeated 2000 '\def\a{x}')" > "$work/two_thousand"
times 100 "$work/message" > "$work/hundred"
times 10000 "$work/message" > "$work/many"

more 'a region that logs a message, of 100' 100 /dev/null "$work/hundred"
more 'a region that logs a message, of 10,000' 9900 "$work/hundred" "$work/many"
more 'a definition, of 2,000 in a region' 1000 "$work/thousand" "$work/two_thousand"
for count in 1000 10000 40000; do
    names "$count" > "$work/names"
    cat "$work/names" "$work/hundred" > "$work/then_messages"
    cat "$work/names" "$work/thousand" > "$work/then_thousand"
    cat "$work/names" "$work/two_thousand" > "$work/then_two_thousand"
    more "a region that logs a message, beside $count names" 100 "$work/names" "$work/then_messages"
    more "a definition, beside $count names" 1000 "$work/then_thousand" "$work/then_two_thousand"
done
clock 'a region that logs a message, of 10,000' 10000 "$work/many"
clock 'a definition, of 2,000 in a region' 2000 "$work/two_thousand"
