#!/bin/sh
# Refuses one allocation of a program, the FIRST, then the one STEP behind it, and so on until none is
# left to refuse. It ends in 0 if all passed and one at least was refused.
# desk: a test passes where the desk does all that it is asked, or hands the value back whole. Each
# line takes a build. Other tests of the crate want all their memory, and their lines are left out.
# session: `cat_plays short` passes where each reply of the session in short_memory.rows is the right one
# or says that memory ran out, or the run ends so, and the journal holds what was accepted and at most
# one call more. What a refusal leaves open shows in a later reply: a draft keeps what it names from the
# collections of the session, and an open collection refuses the next one. The last line says how many
# allocations there are, and how many were refused in the session and outside it. It runs PROGRAM, or else
# the proved one, which is proved and built where it isn't there.
# Usage: tools/refuse_allocations.sh desk|session [FIRST [STEP [PROGRAM]]]
n=${2:-1}
step=${3:-1}
program=$4
[ -z "$program" ] || program=$(realpath -- "$program") || exit 70
crates=$(realpath -- "$(dirname -- "$0")/../crates") || exit 70

refuse_desk() {
    name=desk::a_desk_that_is_refused_hands_its_value_back_whole
    status=0
    refused=0
    said=
    cd "$crates/cat_tests" || exit 70
    while [ "$said" != "the desk was made" ] && [ "$n" -le 100000 ]; do
        out=$(rt try --test --fail-alloc "$n" 2>&1)
        line=$(printf '%s\n' "$out" | sed -n "/^test $name /{s/.* //;p;q;}")
        said=$(printf '%s\n' "$out" | sed -n "/^test $name /{n;s/^ *//p;q;}")
        if [ "$said" != "the desk was made" ]; then
            echo "allocation $n: ${line:-not run}: $said"
            [ "$line" = ok ] || status=1
            [ "$said" = "the desk was refused" ] && refused=$((refused + 1))
        fi
        n=$((n + step))
    done
    [ "$refused" -gt 0 ] || status=1
    echo "refused $refused times; status $status"
    exit $status
}

# A library that takes the place of the C library's allocations, counts them, and refuses the one that
# REFUSED names.
make_library() {
    cat >"$work/refuse.c" <<'END'
extern void *__libc_malloc(unsigned long), *__libc_calloc(unsigned long, unsigned long);
extern void *__libc_realloc(void *, unsigned long), *__libc_memalign(unsigned long, unsigned long);
extern char *getenv(const char *);
extern long atol(const char *);
extern int dprintf(int, const char *, ...);
extern long syscall(long, ...);
extern int *__errno_location(void);
static long made, refused = -1;
static int refuses(void) {
    if (refused < 0) { char *text = getenv("REFUSED"); refused = text ? atol(text) : 0; }
    if (__atomic_add_fetch(&made, 1, __ATOMIC_RELAXED) != refused) return 0;
    *__errno_location() = 12; /* ENOMEM, which the C library asserts where it makes a thread */
    return 1;
}
void *malloc(unsigned long n) { return refuses() ? 0 : __libc_malloc(n); }
void *calloc(unsigned long m, unsigned long n) { return refuses() ? 0 : __libc_calloc(m, n); }
void *realloc(void *p, unsigned long n) { return refuses() ? 0 : __libc_realloc(p, n); }
void *aligned_alloc(unsigned long a, unsigned long n) { return refuses() ? 0 : __libc_memalign(a, n); }
int posix_memalign(void **p, unsigned long a, unsigned long n) {
    return refuses() || !(*p = __libc_memalign(a, n)) ? 12 : 0;
}
__attribute__((destructor)) static void tell(void) { dprintf(2, "allocations %ld\n", made); }
/* a program that ends so runs no destructor */
__attribute__((noreturn)) void _exit(int status) { tell(); for (;;) syscall(231, status); }
END
    cc -O1 -shared -fPIC -o "$work/refuse.so" "$work/refuse.c" || exit 70
}

# Plays the session, with the allocation of this number refused.
play() {
    said=$(LD_PRELOAD=$work/refuse.so REFUSED=$1 "$program" short short_memory.rows 2>"$work/told")
    code=$?
}

refuse_session() {
    if [ -z "$program" ]; then
        program=$crates/cat_plays/out/cat_plays
        [ -x "$program" ] || (cd "$crates/cat_plays" && rt run) || exit 70
    fi
    work=$(mktemp -d) || exit 70
    trap 'rm -rf "$work"' EXIT
    make_library
    cd "$crates/cat_plays/data" || exit 70
    play 0
    all=$(sed -n 's/^allocations //p' "$work/told")
    [ "$code" -eq 0 ] && [ "${all:-0}" -gt 0 ] || { echo "the session doesn't pass with all memory: $said"; exit 1; }
    status=0
    within=0
    outside=0
    while [ "$n" -le "$all" ]; do
        play "$n"
        case "$code $said" in
        "0 "*", 1 short of memory") within=$((within + 1)) ;;
        "0 "* | "4 "*) outside=$((outside + 1)) ;;
        *) echo "allocation $n: status $code: $said"; status=1 ;;
        esac
        n=$((n + step))
    done
    [ "$within" -gt 0 ] || status=1
    echo "$all allocations; $within refused in the session, $outside outside it; status $status"
    exit $status
}

case $1 in
desk) refuse_desk ;;
session) refuse_session ;;
*)
    echo "usage: tools/refuse_allocations.sh desk|session [FIRST [STEP [PROGRAM]]]" >&2
    exit 64
    ;;
esac
