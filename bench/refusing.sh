# What the scripts share that refuse a program each of its allocations in turn. Who sources it has a folder `work`. A malloc,
# which is loaded before that of the C library, refuses the allocation whose number is REFUSED, and writes into the file MADE
# how many there were. Where REFUSE_AS is `on`, it refuses all from that number on; `size`: all of at least so many bytes; `thread`: all
# of the thread of that number, in the order of their first allocations.
cat >"$work/refusing.c" <<'SOURCE'
#include <stdio.h>
#include <stdlib.h>
#include <string.h>
#include <sys/syscall.h>
#include <unistd.h>
extern void *__libc_malloc(size_t size);
extern void *__libc_realloc(void *old, size_t size);
static long refused = -1, made = 0, threads = 0;
static const char *as = "one";
static __thread long thread = 0;
/* Threads may allocate at once; the first allocation comes before there is another thread. */
static int is_refused(size_t size) {
    if (refused < 0) {
        const char *number = getenv("REFUSED"), *how = getenv("REFUSE_AS");
        refused = number ? atol(number) : 0;
        as = how ? how : as;
    }
    long count = __atomic_add_fetch(&made, 1, __ATOMIC_SEQ_CST);
    if (!thread) thread = __atomic_add_fetch(&threads, 1, __ATOMIC_SEQ_CST);
    if (refused == 0) return 0;
    if (!strcmp(as, "on")) return count >= refused;
    if (!strcmp(as, "size")) return size >= (size_t)refused;
    if (!strcmp(as, "thread")) return thread == refused;
    return count == refused;
}
void *malloc(size_t size) { return is_refused(size) ? NULL : __libc_malloc(size); }
void *realloc(void *old, size_t size) { return is_refused(size) ? NULL : __libc_realloc(old, size); }
static void tell(void) {
    long all = made;
    const char *place = getenv("MADE");
    FILE *out = place ? fopen(place, "w") : NULL;
    if (out) {
        fprintf(out, "%ld\n", all);
        fclose(out);
    }
}
/* A program that doesn't return from main ends by _exit, which runs no destructor. */
__attribute__((destructor)) static void ends(void) { tell(); }
void _exit(int status) {
    tell();
    for (;;) syscall(SYS_exit_group, status);
}
SOURCE
cc -O1 -shared -fPIC -o "$work/refusing.so" "$work/refusing.c" || exit 1

# A run of a program whose allocation of that number is refused, or none where it is 0: its status. What it writes goes to a
# file: refuse NUMBER PROGRAM WORD.. The caller's `refuse_as` says how the number is meant.
refuse() {
    MADE=$work/made REFUSED=$1 REFUSE_AS=${refuse_as:-one} LD_PRELOAD=$work/refusing.so "${@:2}" >"$work/out" 2>&1
    echo $?
}

# Whether the test ended since it was refused memory in lines of its own.
is_own_want() {
    grep -q 'AllocError\|AllocFailed\|NoMemory\|no memory' "$work/out"
}
