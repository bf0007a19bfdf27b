/* A library for LD_PRELOAD that refuses growths and threads of the program that it is loaded into. refusing.py builds it and
   runs programs with it.

   A growth is a call of malloc or realloc that the program itself makes, not the dynamic loader nor the C library on
   its own account: the address that the call returns to lies in the program. A thread is such a call of
   pthread_create. Growths are counted from 1 over all threads, in the order in which they come; so are threads.
   Nothing is counted before this library was made ready, which comes before main.

     REFUSE_GROWTH=N   REFUSE_GROWTHS_FROM=N   the Nth growth is refused, or all from the Nth on: NULL and ENOMEM
     REFUSE_THREAD=N   REFUSE_THREADS_FROM=N   the same of threads: EAGAIN
     REFUSE_REPORT=D   the descriptor of a file of six 64-bit numbers, all 0 at first, into which the library counts
                       the events in this order: new blocks, blocks made to grow, blocks given back, growths
                       refused, threads started, threads refused

   The file is mapped and shared, so what it tells outlives a crash. Without these nothing is refused or told. */
#define _GNU_SOURCE
#include <dlfcn.h>
#include <errno.h>
#include <link.h>
#include <pthread.h>
#include <stdint.h>
#include <stdlib.h>
#include <sys/mman.h>

extern void *__libc_malloc(size_t size);
extern void *__libc_realloc(void *block, size_t size);
extern void __libc_free(void *block);

typedef int create_thread(pthread_t *, const pthread_attr_t *, void *(*)(void *), void *);

struct refusals {
    long made; /* How many calls were counted. */
    long only; /* The number of the one call to refuse, or 0. */
    long from; /* The number of the first call from which on all are refused, or 0. */
};

enum event { NEW_BLOCK, GROWN_BLOCK, BLOCK_BACK, GROWTH_REFUSED, THREAD_STARTED, THREAD_REFUSED, EVENTS };

static struct refusals growths, threads;
static uintptr_t program_begin, program_end;
static int64_t untold[EVENTS];
static int64_t *report = untold; /* How many events there were of each kind. */
static create_thread *real_create;

static int is_program(void *return_address)
{
    uintptr_t address = (uintptr_t)return_address;
    return program_begin <= address && address < program_end;
}

static void tell(enum event event)
{
    __atomic_add_fetch(&report[event], 1, __ATOMIC_SEQ_CST);
}

static int is_refused(struct refusals *calls)
{
    long number = __atomic_add_fetch(&calls->made, 1, __ATOMIC_SEQ_CST);
    return number == calls->only || (calls->from > 0 && number >= calls->from);
}

/* What a growth answers where it was refused or the C library refused it, and where it was made. */
static void *growth_done(void *grown, enum event event)
{
    if (grown == NULL)
        errno = ENOMEM;
    tell(grown == NULL ? GROWTH_REFUSED : event);
    return grown;
}

void *malloc(size_t size)
{
    if (!is_program(__builtin_return_address(0)))
        return __libc_malloc(size);
    return growth_done(is_refused(&growths) ? NULL : __libc_malloc(size), NEW_BLOCK);
}

void *realloc(void *block, size_t size)
{
    if (!is_program(__builtin_return_address(0)))
        return __libc_realloc(block, size);
    enum event event = block == NULL ? NEW_BLOCK : GROWN_BLOCK;
    return growth_done(is_refused(&growths) ? NULL : __libc_realloc(block, size), event);
}

void free(void *block)
{
    if (block != NULL && is_program(__builtin_return_address(0)))
        tell(BLOCK_BACK);
    __libc_free(block);
}

int pthread_create(pthread_t *thread, const pthread_attr_t *attributes, void *(*body)(void *), void *argument)
{
    if (!is_program(__builtin_return_address(0)))
        return real_create(thread, attributes, body, argument);
    int refusal = is_refused(&threads) ? EAGAIN : real_create(thread, attributes, body, argument);
    tell(refusal == 0 ? THREAD_STARTED : THREAD_REFUSED);
    return refusal;
}

/* The addresses of the first object of the process, which is the program. */
static int note_program(struct dl_phdr_info *object, size_t size, void *unused)
{
    (void)size;
    (void)unused;
    for (int part = 0; part < object->dlpi_phnum; part++) {
        const ElfW(Phdr) *header = &object->dlpi_phdr[part];
        if (header->p_type != PT_LOAD || !(header->p_flags & PF_X))
            continue;
        program_begin = object->dlpi_addr + header->p_vaddr;
        program_end = program_begin + header->p_memsz;
    }
    return 1;
}

static long number_in(const char *name, long otherwise)
{
    const char *value = getenv(name);
    return value == NULL ? otherwise : atol(value);
}

static void map_report(int descriptor)
{
    if (descriptor < 0)
        return;
    void *mapped = mmap(NULL, sizeof untold, PROT_READ | PROT_WRITE, MAP_SHARED, descriptor, 0);
    if (mapped != MAP_FAILED)
        report = mapped;
}

__attribute__((constructor)) static void make_ready(void)
{
    real_create = (create_thread *)dlsym(RTLD_NEXT, "pthread_create");
    growths.only = number_in("REFUSE_GROWTH", 0);
    growths.from = number_in("REFUSE_GROWTHS_FROM", 0);
    threads.only = number_in("REFUSE_THREAD", 0);
    threads.from = number_in("REFUSE_THREADS_FROM", 0);
    map_report((int)number_in("REFUSE_REPORT", -1));
    dl_iterate_phdr(note_program, NULL);
}
