#!/bin/sh
# Runs tests with each allocation of theirs failing in turn: the first, the second, .., until a run has fewer. The arguments
# name crates of tests. It takes the program crates/NAME/out/NAME_tests, which `tools/dev/build_unproved.py tests NAME FILE` makes, and proves nothing.
#
# Tried are the tests of refused memory, by their names: of a module `refused` or `refusals`, or with out_of_memory, without_memory,
# no_memory, refused_memory, refused_request or memory_cuts_short in it. Each takes a refusal as an answer and looks at what is left, so it passes
# whichever allocation fails. ample_memory_meets_no_refusal is the canary: it takes a refusal as a failure, so a run of it must fail.
#
# tools/dev/fail-alloc.list names tests that must be there, with the calls that they make; what is missing fails the run. At the end a table says of each test how
# many allocations it makes and how many runs left a wrong answer.
set -eu
cd "$(dirname "$0")/../.."
[ $# -gt 0 ] || set -- test_tier test_lru test_words test_store
names='refused::\|refusals::\|refused_memory\|refused_request\|out_of_memory\|without_memory\|no_memory\|memory_cuts_short'
work=$(mktemp -d)
trap 'rm -rf "$work"' EXIT
cat > "$work/fail.c" <<'C'
/* The FAIL_ATth allocation of the process returns no memory, and the file FAIL_MARK is made then. */
#define _GNU_SOURCE
#include <errno.h>
#include <fcntl.h>
#include <stdatomic.h>
#include <stdlib.h>
#include <unistd.h>

extern void *__libc_malloc(size_t), *__libc_calloc(size_t, size_t), *__libc_realloc(void *, size_t), *__libc_memalign(size_t, size_t);
static atomic_long met;
static long at;

__attribute__((constructor)) static void begin(void) {
    const char *word = getenv("FAIL_AT");
    at = word ? atol(word) : 0;
    met = 0;
}

static int fails(void) {
    if (!at || atomic_fetch_add(&met, 1) + 1 != at) return 0;
    int file = open(getenv("FAIL_MARK"), O_CREAT | O_WRONLY, 0600);
    if (file >= 0) close(file);
    errno = ENOMEM;
    return 1;
}

void *malloc(size_t n) { return fails() ? NULL : __libc_malloc(n); }
void *calloc(size_t n, size_t m) { return fails() ? NULL : __libc_calloc(n, m); }
void *realloc(void *p, size_t n) { return fails() ? NULL : __libc_realloc(p, n); }
void *aligned_alloc(size_t a, size_t n) { return fails() ? NULL : __libc_memalign(a, n); }
void *memalign(size_t a, size_t n) { return fails() ? NULL : __libc_memalign(a, n); }
int posix_memalign(void **p, size_t a, size_t n) {
    if (fails()) return ENOMEM;
    void *made = __libc_memalign(a, n);
    if (!made) return ENOMEM;
    *p = made;
    return 0;
}
C
cc -O2 -shared -fPIC -o "$work/fail.so" "$work/fail.c"

# Runs a test with that allocation failing; says whether it met it by the file `mark`.
one() {
    rm -f "$work/mark"
    FAIL_AT=$3 FAIL_MARK="$work/mark" LD_PRELOAD="$work/fail.so" "$1" "$2" > "$work/said" 2>&1
}

passed=0
failed=0
: > "$work/table"
for crate in "$@"; do
    program=$PWD/crates/$crate/out/${crate}_tests
    [ -x "$program" ] || { echo "fail-alloc: there is no $program: run tools/dev/build_unproved.py tests $crate $program first"; exit 1; }
    "$program" --list | sed -n 's/: test$//p' > "$work/tests"
    for wanted in $(sed -n "s/^$crate \([^ ]*\).*/\1/p" tools/dev/fail-alloc.list); do
        grep "$names" "$work/tests" | grep -q "\(^\|::\)$wanted\$" || { echo "$crate: there is no test $wanted"; failed=$((failed + 1)); }
    done
    for name in $(grep "$names" "$work/tests"); do
        n=1
        refusals=0
        wrong=0
        while :; do
            status=0
            one "$program" "$name" "$n" || status=$?
            [ "$status" -eq 0 ] || refusals=$((refusals + 1))
            [ -e "$work/mark" ] || break
            if [ "$status" -ne 0 ] && [ "${name%ample_memory_meets_no_refusal}" = "$name" ]; then
                echo "$crate: $name fails where allocation $n fails"
                tail -n 3 "$work/said"
                failed=$((failed + 1))
                wrong=$((wrong + 1))
            fi
            n=$((n + 1))
        done
        if [ "$status" -ne 0 ]; then
            echo "$crate: $name fails where none fails"
            failed=$((failed + 1))
        elif [ "${name%ample_memory_meets_no_refusal}" != "$name" ] && [ "$refusals" -eq 0 ]; then
            echo "$crate: the canary $name met no refusal in $((n - 1)) runs"
            failed=$((failed + 1))
        else
            passed=$((passed + n))
        fi
        calls=$(sed -n "s/^$crate ${name##*::} //p" tools/dev/fail-alloc.list)
        echo "| $crate | $name${calls:+: $calls} | $((n - 1)) | $wrong |" >> "$work/table"
    done
done
echo "| Crate | Test and its calls | Allocations that failed in turn | Wrong answers |"
echo "|---|---|---|---|"
cat "$work/table"
echo "$passed passed, $failed failed"
[ "$failed" -eq 0 ] && [ "$passed" -gt 0 ]
