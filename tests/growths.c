/* What tests/growths and tests/growths_served preload into a program: of the memory that the program itself asks for, it refuses the request
   whose turn STORE_REFUSED names, from 1, and says so in a line on standard error. If STORE_REFUSED is "again", each SIGUSR1 lets it count from
   1 anew, and refuse the request of the next turn: the first after the first signal, the second after the second. What the C library asks for
   is neither counted nor refused. */
#define _GNU_SOURCE
#include <errno.h>
#include <link.h>
#include <signal.h>
#include <stdlib.h>
#include <string.h>
#include <unistd.h>

extern void *__libc_malloc(size_t size);
extern void *__libc_realloc(void *old, size_t size);

static const char TOLD[] = "refused\n";
static ElfW(Addr) first, last;
static long turn, signals;

static void count_anew(int number)
{
    (void)number;
    __atomic_store_n(&turn, ++signals, __ATOMIC_SEQ_CST);
}

/* The program is the first object that is told: where its code begins and ends. */
static int note_program(struct dl_phdr_info *object, size_t size, void *unused)
{
    (void)size, (void)unused;
    for (int i = 0; i < object->dlpi_phnum; i++) {
        const ElfW(Phdr) *part = &object->dlpi_phdr[i];
        if (part->p_type == PT_LOAD && part->p_flags & PF_X) {
            first = object->dlpi_addr + part->p_vaddr;
            last = first + part->p_memsz;
        }
    }
    return 1;
}

__attribute__((constructor)) static void begin(void)
{
    const char *named = getenv("STORE_REFUSED");
    turn = named ? atol(named) : 0;
    if (named && strcmp(named, "again") == 0)
        signal(SIGUSR1, count_anew);
    dl_iterate_phdr(note_program, NULL);
}

static int is_refused(void *caller)
{
    ElfW(Addr) place = (ElfW(Addr))caller;
    if (place < first || place >= last || __atomic_sub_fetch(&turn, 1, __ATOMIC_SEQ_CST) != 0)
        return 0;
    if (write(STDERR_FILENO, TOLD, sizeof TOLD - 1) < 0)
        abort();
    errno = ENOMEM;
    return 1;
}

void *malloc(size_t size)
{
    return is_refused(__builtin_return_address(0)) ? NULL : __libc_malloc(size);
}

void *realloc(void *old, size_t size)
{
    return is_refused(__builtin_return_address(0)) ? NULL : __libc_realloc(old, size);
}
