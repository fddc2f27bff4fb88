#!/usr/bin/env bash
# Runs the program on texts while one call of the system fails: each allocation of a run refused in
# turn, each read failed in turn, each write failed in turn; and on the texts cut after each of their
# bytes. A refused allocation has to end in status 5 with nothing but a front of the replies, or as
# without refusal; a failed read in status 3 with nothing written; a failed write in status 4 with a
# front of the replies; a cut text in status 0, or in 2 with nothing written, where the lines before
# the last have to end in 0, so that the last is the first bad one. Prints a line for each text, and
# each run that ends otherwise, which makes its own status 1.
#
# tools/refuse-memory.sh [TEXT..]: those of examples/ where none is given. It needs gcc.
set -eu
top=$(cd "$(dirname "$0")/.." && pwd)
program=$top/crates/rhd/out/rhd
work=$(mktemp -d)
trap 'rm -rf "$work"' EXIT
"$top/rhd" run </dev/null >/dev/null
[ $# -gt 0 ] || set -- "$top"/examples/*.txt

cat >"$work/fail.c" <<'C'
#define _GNU_SOURCE
#include <dlfcn.h>
#include <errno.h>
#include <stdio.h>
#include <stdlib.h>
#include <string.h>
#include <unistd.h>

/* FAIL_CALL names alloc, read or write, FAIL_AT counts its calls from 1; the calls are counted into
   the file FAIL_COUNT. */
static long seen, at = -1;
static char kind;

__attribute__((constructor)) static void begin(void) {
    const char *call = getenv("FAIL_CALL"), *number = getenv("FAIL_AT");
    kind = call ? call[0] : 0;
    at = number ? atol(number) : 0;
    seen = 0;
}

__attribute__((destructor)) static void end(void) {
    const char *name = getenv("FAIL_COUNT");
    long all = seen;
    kind = 0;
    FILE *out = name ? fopen(name, "w") : NULL;
    if (out) {
        fprintf(out, "%ld\n", all);
        fclose(out);
    }
}

static int fails(char of) { return kind == of && ++seen == at; }

extern void *__libc_malloc(size_t), *__libc_calloc(size_t, size_t), *__libc_realloc(void *, size_t);
extern void *__libc_memalign(size_t, size_t);
void *malloc(size_t n) { return fails('a') ? NULL : __libc_malloc(n); }
void *calloc(size_t n, size_t m) { return fails('a') ? NULL : __libc_calloc(n, m); }
void *realloc(void *p, size_t n) { return fails('a') ? NULL : __libc_realloc(p, n); }
void *aligned_alloc(size_t a, size_t n) { return fails('a') ? NULL : __libc_memalign(a, n); }
int posix_memalign(void **p, size_t a, size_t n) {
    if (fails('a')) return ENOMEM;
    *p = __libc_memalign(a, n);
    return *p ? 0 : ENOMEM;
}

ssize_t read(int fd, void *to, size_t n) {
    static ssize_t (*next)(int, void *, size_t);
    if (!next) next = (ssize_t (*)(int, void *, size_t))dlsym(RTLD_NEXT, "read");
    if (fd == 0 && fails('r')) return errno = EIO, -1;
    return next(fd, to, n);
}
ssize_t write(int fd, const void *from, size_t n) {
    static ssize_t (*next)(int, const void *, size_t);
    if (!next) next = (ssize_t (*)(int, const void *, size_t))dlsym(RTLD_NEXT, "write");
    if (fd == 1 && fails('w')) return errno = EIO, -1;
    return next(fd, from, n);
}
C
gcc -O1 -shared -fPIC -o "$work/fail.so" "$work/fail.c" -ldl

wrong=0
complain() {
    echo "$1"
    wrong=1
}

# Runs a text; where a call is to fail, its kind and count come next.
run() {
    local text=$1 call=${2:-} number=${3:-0} status=0
    FAIL_CALL=$call FAIL_AT=$number FAIL_COUNT=$work/count LD_PRELOAD=$work/fail.so \
        "$program" run <"$text" >"$work/out" 2>"$work/err" || status=$?
    [ ! -s "$work/err" ] || complain "$text: $call $number: words on standard error"
    echo "$status" >"$work/status"
}

# Whether the output is a front of all replies.
is_front() {
    cmp -s -n "$(stat -c %s "$work/out")" "$work/out" "$work/all"
}

each() {
    local text=$1 call=$2 want=$3 number=1 count status
    run "$text" "$call"
    count=$(cat "$work/count")
    while [ "$number" -le "$count" ]; do
        run "$text" "$call" "$number"
        status=$(cat "$work/status")
        if [ "$status" = "$want" ]; then
            is_front || complain "$text: $call $number: other bytes"
            [ "$call" != read ] || [ ! -s "$work/out" ] || complain "$text: $call $number: replies"
        elif [ "$call" != alloc ] || [ "$status" != "$whole" ] || ! cmp -s "$work/out" "$work/all"; then
            complain "$text: $call $number: status $status"
        fi
        number=$((number + 1))
    done
    printf '%6d %s' "$count" "$call"
}

cuts() {
    local text=$1 size n=0 status
    size=$(stat -c %s "$text")
    while [ "$n" -lt "$size" ]; do
        head -c "$n" "$text" >"$work/cut"
        run "$work/cut"
        status=$(cat "$work/status")
        case $status in
        0) ;;
        2)
            [ ! -s "$work/out" ] || complain "$text: cut after $n: replies"
            head -n -1 "$work/cut" >"$work/lines"
            run "$work/lines"
            [ "$(cat "$work/status")" = 0 ] || complain "$text: cut after $n: an earlier line is bad"
            ;;
        *) complain "$text: cut after $n: status $status" ;;
        esac
        n=$((n + 1))
    done
    printf '%6d cuts' "$size"
}

for text in "$@"; do
    run "$text"
    whole=$(cat "$work/status")
    cp "$work/out" "$work/all"
    each "$text" alloc 5
    each "$text" read 3
    each "$text" write 4
    cuts "$text"
    echo "  $text"
done
exit "$wrong"
