#!/bin/bash
# Refuses every single growth of memory of a run in turn, the first, the second and so on, until a run meets no refusal. The status
# must be 8 or that of the run with ample memory, and what is written must be a front of what that run writes. The last line of
# each text counts its runs. It needs rt and cc: the built program takes its memory from the C library, in front of which a small
# library stands that refuses one call.
#
#   bench/refused-memory.sh [STEP [PROGRAM ..]]
#
# With STEP only each STEP-th growth is refused in the longest text, which has very many; 1 without it. The programs are out/pfc and
# out/pfcwalk, as the scripts build them, where none is named; pfcwalk has texts of every construct besides, and pfc the code.
set -e
here="$(cd "$(dirname "$0")" && pwd)"
step="${1-1}"
shift || true
work="$(mktemp -d)"
trap 'rm -rf "$work"' EXIT
if [ $# = 0 ]; then
    echo 'program a; begin writeln(1+2) end.' > "$work/sum.pas"
    for name in pfc pfcwalk; do
        "$here/../$name" "$work/sum.pas" > /dev/null
        set -- "$@" "$here/../out/$name"
    done
fi
programs=()
for program in "$@"; do programs+=("$(readlink -f "$program")"); done
examples="$here/../examples"
cd "$work"
echo 'program a; begin writeln(1+2) end.' > sum.pas

cat > refuse.c <<'C'
#define _GNU_SOURCE
#include <dlfcn.h>
#include <errno.h>
#include <stdlib.h>
#include <unistd.h>

/* the number of the call that is refused, from 1, and of the calls so far */
static unsigned long refused, calls;

static int refuses(void) {
    if (!refused) {
        const char *wanted = getenv("REFUSED");
        refused = wanted ? strtoul(wanted, 0, 10) : -1;
    }
    if (++calls != refused) return 0;
    /* tells that the call came */
    write(9, "r", 1);
    errno = ENOMEM;
    return 1;
}

void *malloc(size_t size) {
    static void *(*next)(size_t);
    if (!next) next = dlsym(RTLD_NEXT, "malloc");
    return refuses() ? 0 : next(size);
}

void *realloc(void *old, size_t size) {
    static void *(*next)(void *, size_t);
    if (!next) next = dlsym(RTLD_NEXT, "realloc");
    return refuses() ? 0 : next(old, size);
}

void *aligned_alloc(size_t alignment, size_t size) {
    static void *(*next)(size_t, size_t);
    if (!next) next = dlsym(RTLD_NEXT, "aligned_alloc");
    return refuses() ? 0 : next(alignment, size);
}

int posix_memalign(void **to, size_t alignment, size_t size) {
    static int (*next)(void **, size_t, size_t);
    if (!next) next = dlsym(RTLD_NEXT, "posix_memalign");
    return refuses() ? ENOMEM : next(to, alignment, size);
}
C
cc -O2 -shared -fPIC -o refuse.so refuse.c -ldl

# refuse_each NAME STEP WORDS: the runs of these words, of which each refuses one growth
refuse_each() {
    local name="$1" each="$2" number=1 runs=0 wanting=0 wanted status
    shift 2
    wanted=0
    "$program" "$@" > whole || wanted=$?
    while :; do
        status=0
        : > came
        REFUSED="$number" LD_PRELOAD="$work/refuse.so" "$program" "$@" > part 9> came || status=$?
        if ! [ -s came ]; then break; fi
        runs=$((runs + 1))
        if [ "$status" = 8 ]; then
            wanting=$((wanting + 1))
        elif [ "$status" != "$wanted" ]; then
            echo "$(basename "$program"), $name: without its growth $number it ends with status $status"
            exit 1
        fi
        if ! cmp -s -n "$(stat -c %s part)" part whole; then
            echo "$(basename "$program"), $name: without its growth $number it writes something else"
            exit 1
        fi
        number=$((number + each))
    done
    echo "$(basename "$program"), $name: $runs growths refused, $wanting of them with status 8; each wrote a front of its $(stat -c %s whole) bytes"
}

echo 0 0 0 0 > script
echo 'program i; var a: integer; begin read(a); writeln(a) end.' > read.pas
echo 5 > input
echo 'program w; begin writeln(x) end.' > wrong.pas
python3 -c "print('program a; var i: integer; begin write(i' + ',i' * 66665 + ') end.')" > longest.pas
for program in "${programs[@]}"; do
    refuse_each 'the sum' 1 sum.pas
    refuse_each 'the sum, listed' 1 sum.pas --list
    refuse_each 'an input and a script' 1 read.pas --input input --script script
    refuse_each 'a refused text' 1 wrong.pas --list
    case $(basename "$program") in
    pfc) refuse_each 'the sum, with its code' 1 sum.pas --list --code ;;
    pfcwalk)
        for example in lost_update procedures ranked_delays barrier replicated rendezvous; do
            refuse_each "$example" 1 "$examples/$example.pas"
        done
        ;;
    esac
    refuse_each 'the longest row' "$step" longest.pas
done
