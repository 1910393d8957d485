#!/bin/bash
# Prints the processor seconds that each crate takes in the gate: its own proof, the proof of its tests, and its edits with
# their seed; the longest chain of own proofs among crates that stand on each other; and what a user's first build proves.
#
#     bench/gate-costs.sh LOG [NAME..]       runs `rt ci NAME..`, notes its checks in LOG, and prints the table
#     bench/gate-costs.sh --table LOG        prints the table of a log
#     bench/gate-costs.sh --watch LOG PID    notes the checks of a run of `rt ci` that is its session's first process
#
# A log has a line for each second of each check: the process, what it is for, the crate, and the seconds so far. What `rt ci`
# takes from an earlier run costs nothing and is not in it: `rt ci --anew` tells everything. What ends within a second is lost.
set -e
here="$(cd "$(dirname "$0")" && pwd)"

# notes the checks of the session of this process while it is there
watch() {
    while kill -0 "$2" 2>/dev/null; do
        ps -ww --sid "$2" -o pid=,cputimes=,args= 2>/dev/null | while read -r process seconds words; do
            [[ $words == */rattle\ *--crate-name\ * ]] || continue
            name="${words#*--crate-name }"
            name="${name%% *}"
            folder="$(readlink "/proc/$process/cwd" 2>/dev/null || true)"
            case "$folder $words" in
                */rt-edit-* | */rt-edits-*) kind=edits ;;
                *" --test "* | *" --test") kind=tests ;;
                *) kind=own ;;
            esac
            echo "$process $kind $name $seconds" >> "$1"
        done
        sleep 1
    done
}

table() {
    awk '
        FNR == 1 { file++ }
        file == 1 && !/^#/ && /:/ {
            name = $1; sub(/:.*/, "", name)
            crates[++count] = name
            for (k = 2; k <= NF; k++) below[name] = below[name] " " $k
        }
        file == 2 { key = $1 " " $2 " " $3; if ($4 > most[key]) most[key] = $4 }
        function chain(name,    uses, n, k, best, longest) {
            if (name in depth) return depth[name]
            n = split(below[name], uses, " "); best = ""; longest = 0
            for (k = 1; k <= n; k++) if (uses[k] in listed && chain(uses[k]) > longest) { longest = chain(uses[k]); best = uses[k] }
            path[name] = (best == "" ? "" : path[best] " > ") name
            return depth[name] = longest + own[name]
        }
        # the own proofs of a crate and of all below it
        function whole(name,    uses, n, k, sum) {
            if (name in counted || !(name in listed)) return 0
            counted[name]
            n = split(below[name], uses, " "); sum = own[name]
            for (k = 1; k <= n; k++) sum += whole(uses[k])
            return sum
        }
        END {
            for (key in most) {
                split(key, part, " ")
                if (part[2] == "own") own[part[3]] += most[key]
                if (part[2] == "tests") tests[part[3]] += most[key]
                if (part[2] == "edits") edits[part[3]] += most[key]
            }
            for (k = 1; k <= count; k++) listed[crates[k]]
            printf "%-20s %6s %6s %6s %6s\n", "crate", "own", "tests", "edits", "all"
            for (k = 1; k <= count; k++) {
                name = crates[k]; all = own[name] + tests[name] + edits[name]
                printf "%-20s %6d %6d %6d %6d%s\n", name, own[name], tests[name], edits[name], all, (all > 580 || own[name] > 220 ? "  over the budget" : "")
                a += own[name]; b += tests[name]; c += edits[name]
                if (chain(name) > longest) { longest = chain(name); last = name }
            }
            printf "%-20s %6d %6d %6d %6d\n", "together", a, b, c, a + b + c
            printf "longest chain: %d seconds: %s\n", longest, path[last]
            printf "first build (own proofs of pfc and of all below it): %d seconds\n", whole("pfc")
        }' "$here/../crates.txt" "$1"
}

case "${1:-}" in
    "") sed -n '2,12s/^# \{0,1\}//p' "$0"; exit 2 ;;
    --table) table "$2" ;;
    --watch) watch "$2" "$3" ;;
    *)
        log="$(realpath "$1")"
        shift
        : > "$log"
        cd "$here/.."
        setsid rt ci "$@" &
        watch "$log" $!
        wait $! && status=0 || status=$?
        table "$log"
        exit $status ;;
esac
