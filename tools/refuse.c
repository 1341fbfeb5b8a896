/* Refuses growths of a built program. It is loaded before the C library (LD_PRELOAD), and hands on to it each call of
 * malloc and realloc that the program makes but those that it refuses. Calls that the C library makes for itself,
 * as for a thread or a stream of stdio, neither count nor are refused.
 *
 * REFUSE_NTH is the call that is refused, from 1; where REFUSE_ON is set, those after it are too. REFUSE_LOG names a file
 * to which two numbers of 64 bits are kept: the calls that were counted, and those that were refused.
 *
 * The program may ask too, by blocks that are never there: one of 2^62 + N bytes has the Nth call from here refused (of 0:
 * none). One of 2^62 + 2^61 bytes has none refused from here on, but the next call where one was since this was last
 * asked: that call is the answer, and doesn't count. */
#define _GNU_SOURCE
#include <errno.h>
#include <fcntl.h>
#include <link.h>
#include <stdatomic.h>
#include <stdint.h>
#include <stdlib.h>
#include <sys/mman.h>
#include <unistd.h>

#define ASK ((size_t)1 << 62)
#define CAME (ASK + (ASK >> 1))

extern void *__libc_malloc(size_t);
extern void *__libc_realloc(void *, size_t);

struct counts {
    _Atomic uint64_t made, refused;
};

static struct counts unnamed, *counts = &unnamed;
static _Atomic uint64_t left; /* calls up to the one that is refused, that one too; 0: none is */
static atomic_int came, goes_on; /* whether a call was refused since it was asked; whether those after it are too */
static atomic_int answer;        /* what the next call is told: 1 that none was refused, 2 that one was; 0: nothing */
static uintptr_t from, to; /* where the program's code is */

/* Notes where the code of the first object is, which is the program. */
static int find_code(struct dl_phdr_info *object, size_t size, void *unused)
{
    (void)size, (void)unused;
    for (int i = 0; i < object->dlpi_phnum; i++) {
        const ElfW(Phdr) *part = &object->dlpi_phdr[i];
        if (part->p_type == PT_LOAD && part->p_flags & PF_X) {
            from = object->dlpi_addr + part->p_vaddr;
            to = from + part->p_memsz;
        }
    }
    return 1;
}

__attribute__((constructor)) static void begin(void)
{
    const char *nth = getenv("REFUSE_NTH"), *log = getenv("REFUSE_LOG");
    int file = log ? open(log, O_RDWR | O_CREAT | O_TRUNC, 0600) : -1;
    if (file >= 0 && ftruncate(file, sizeof *counts) == 0) {
        void *kept = mmap(NULL, sizeof *counts, PROT_READ | PROT_WRITE, MAP_SHARED, file, 0);
        if (kept != MAP_FAILED)
            counts = kept;
    }
    dl_iterate_phdr(find_code, NULL);
    goes_on = getenv("REFUSE_ON") != NULL;
    left = nth ? strtoull(nth, NULL, 10) : 0;
}

/* Counts a call that is due to be counted down to, and says whether it is refused. */
static int is_due(void)
{
    uint64_t now = left, next;
    do {
        if (now == 0)
            return 0;
        next = now == 1 && goes_on ? 1 : now - 1;
    } while (!atomic_compare_exchange_weak(&left, &now, next));
    return now == 1;
}

static int is_refused(void *caller, size_t size)
{
    if ((uintptr_t)caller < from || (uintptr_t)caller >= to)
        return 0;
    if (size >= ASK) {
        left = size == CAME ? 0 : size - ASK;
        if (size == CAME) {
            answer = 1 + came;
            came = 0;
        }
        return 1;
    }
    if (answer) {
        int is_yes = answer == 2;
        answer = 0;
        return is_yes;
    }
    counts->made++;
    if (!is_due())
        return 0;
    counts->refused++;
    came = 1;
    return 1;
}

void *malloc(size_t size)
{
    if (is_refused(__builtin_return_address(0), size)) {
        errno = ENOMEM;
        return NULL;
    }
    return __libc_malloc(size);
}

void *realloc(void *block, size_t size)
{
    if (is_refused(__builtin_return_address(0), size)) {
        errno = ENOMEM;
        return NULL;
    }
    return __libc_realloc(block, size);
}
