/* What the programs call of the C library, where they run in a page. They are compiled for Linux, with pointers of 64 bits, and reach
 * the system by the functions below alone. The page gives them standard input, the words of a command line and random bytes, and takes
 * what they write. There are no threads, no files and no clock. The page makes a new instance of the module for each run.
 *
 * No proof covers this file. What can't be done here fails as the C library would fail, or traps. */

typedef unsigned long size_t;
typedef long ssize_t;

#define FROM_PAGE(name) __attribute__((import_module("page"), import_name(#name)))
#define TO_PAGE(name) __attribute__((export_name(#name)))

enum { PAGE_BYTES = 65536, NO_SUCH_FILE = 9, TRY_AGAIN = 11, NOT_ALLOWED = 22, NO_SEEK = 29 };

FROM_PAGE(read) ssize_t page_read(void *to, size_t most);
FROM_PAGE(write) ssize_t page_write(int file, const void *from, size_t count);
FROM_PAGE(random) void page_random(void *to, size_t count);
FROM_PAGE(word) ssize_t page_word(size_t index, void *to, size_t most);

/* The program's own entry, which the compiler would give another name in C for this target. */
extern int program_main(void) __asm__("main");

TO_PAGE(run) int run(void) { return program_main(); }

/* The program begins by asking whether the processor has what it was compiled for. Here it is compiled for WebAssembly: all is there. */
const void *__x86_get_cpuid_feature_leaf(unsigned leaf) {
    static const unsigned features[] = {-1u, -1u, -1u, -1u, -1u, -1u, -1u, -1u};
    return features;
}

/* ---- Memory ----
 *
 *     | size class | next free |  what was asked for, up to 16 << class bytes  |
 *     ^ block                  ^ what is handed out
 *
 * A block that is freed goes onto the list of its class, and is handed out again from there. */

enum { CLASSES = 44, SMALLEST = 16 };

struct block {
    size_t class;
    struct block *next_free;
};

extern unsigned char __heap_base;
static struct block *free_blocks[CLASSES];
static size_t heap_next, heap_end;

static size_t class_for(size_t bytes) {
    size_t class = 0;
    while (class < CLASSES && ((size_t)SMALLEST << class) < bytes) class++;
    return class;
}

/* Bytes behind all that was handed out so far, or null where the browser gives no more. */
static void *fresh(size_t bytes) {
    if (!heap_next) {
        heap_next = ((size_t)&__heap_base + 15) & ~15ul;
        heap_end = __builtin_wasm_memory_size(0) * PAGE_BYTES;
    }
    if (heap_end - heap_next < bytes) {
        size_t pages = (bytes - (heap_end - heap_next) + PAGE_BYTES - 1) / PAGE_BYTES + 15;
        if (__builtin_wasm_memory_grow(0, pages) == (size_t)-1) return 0;
        heap_end = __builtin_wasm_memory_size(0) * PAGE_BYTES;
    }
    void *found = (void *)heap_next;
    heap_next += bytes;
    return found;
}

void *malloc(size_t bytes) {
    size_t class = class_for(bytes);
    if (class == CLASSES) return 0;
    struct block *block = free_blocks[class];
    if (block) {
        free_blocks[class] = block->next_free;
    } else {
        block = fresh(sizeof *block + ((size_t)SMALLEST << class));
        if (!block) return 0;
        block->class = class;
    }
    return block + 1;
}

void free(void *given) {
    if (!given) return;
    struct block *block = (struct block *)given - 1;
    block->next_free = free_blocks[block->class];
    free_blocks[block->class] = block;
}

/* Each is one instruction of WebAssembly. */
void *memmove(void *to, const void *from, size_t count) { return __builtin_memmove(to, from, count); }
void *memcpy(void *to, const void *from, size_t count) { return __builtin_memcpy(to, from, count); }
void *memset(void *to, int byte, size_t count) { return __builtin_memset(to, byte, count); }

/* Whether there is memory, and where. Where there is none, the address is of a byte that nobody owns. */
struct tried {
    size_t ok;
    void *at;
};

static struct tried tried(void *at) {
    static char nowhere;
    return (struct tried){at != 0, at ? at : &nowhere};
}

/* What is handed out is aligned to 16. More is never asked for, and would be a trap. */
static void accept_alignment(size_t align) {
    if (align > SMALLEST) __builtin_trap();
}

struct tried rattle_alloc(size_t bytes, size_t align) {
    accept_alignment(align);
    return tried(malloc(bytes));
}

struct tried rattle_realloc(void *given, size_t kept, size_t bytes, size_t align) {
    accept_alignment(align);
    struct block *block = (struct block *)given - 1;
    if (bytes <= (size_t)SMALLEST << block->class) return tried(given);
    void *to = malloc(bytes);
    if (to) {
        memmove(to, given, kept);
        free(given);
    }
    return tried(to);
}

void rattle_dealloc(void *given) { free(given); }

/* ---- Input, output and the command line ---- */

static int last_error;

static int fail(int error) {
    last_error = error;
    return -1;
}

int rattle_errno(void) { return last_error; }
void rattle_set_errno(int error) { last_error = error; }

ssize_t read(int file, void *to, size_t most) { return file == 0 ? page_read(to, most) : fail(NO_SUCH_FILE); }
ssize_t write(int file, const void *from, size_t count) {
    return file == 1 || file == 2 ? page_write(file, from, count) : fail(NO_SUCH_FILE);
}
ssize_t __write(int file, const void *from, size_t count) { return write(file, from, count); }
ssize_t lseek(int file, ssize_t offset, int whence) { return fail(NO_SEEK); }
int close(int file) { return 0; }

/* -1 behind the last word, -2 where it is longer than what it is to go to. */
ssize_t rattle_arg(size_t index, void *to, size_t most) { return page_word(index, to, most); }
ssize_t rattle_env_at(size_t index, void *to, size_t most) { return -1; }
ssize_t rattle_env(void *name, void *to, size_t most) { return -1; }

int getentropy(void *to, size_t count) {
    page_random(to, count);
    return 0;
}

/* ---- Threads, of which there is one ---- */

enum { FUTEX = 202, WAKE = 1, FUTEX_COMMANDS = 127 };

/* A wake finds nobody. Nothing else is asked of the system, and a wait would have no end. */
long syscall(long number, void *word, long command, long count, void *timeout, ...) {
    if (number == FUTEX && (command & FUTEX_COMMANDS) == WAKE) return 0;
    __builtin_trap();
}

_Noreturn void abort(void) { __builtin_trap(); }
size_t __sysv_signal(int signal, size_t handler) { return 0; }
size_t pthread_self(void) { return 1; }
int sched_yield(void) { return 0; }
int pthread_attr_init(void *attributes) { return TRY_AGAIN; }
int pthread_attr_setguardsize(void *attributes, size_t bytes) { return 0; }
int pthread_attr_setstacksize(void *attributes, size_t bytes) { return 0; }
int pthread_attr_destroy(void *attributes) { return 0; }
int pthread_create(void *thread, void *attributes, void *start, void *argument) { return TRY_AGAIN; }
int pthread_detach(size_t thread) { return NOT_ALLOWED; }
int pthread_join(size_t thread, void *result) { return NOT_ALLOWED; }

/* ---- Arithmetic on 128 bits, for which WebAssembly has no instructions ---- */

typedef unsigned long half;
typedef unsigned __int128 whole;

static half low_half(whole value) { return (half)value; }
static half high_half(whole value) { return (half)(value >> 64); }
static whole of_halves(half high, half low) { return (whole)high << 64 | low; }

/* A product by four of 64 bits. */
whole __multi3(whole one, whole other) {
    half a = low_half(one) & 0xffffffff, b = low_half(one) >> 32;
    half c = low_half(other) & 0xffffffff, d = low_half(other) >> 32;
    half ac = a * c, ad = a * d, bc = b * c, bd = b * d;
    half middle = (ac >> 32) + (ad & 0xffffffff) + (bc & 0xffffffff);
    half upper = bd + (ad >> 32) + (bc >> 32) + (middle >> 32);
    upper += low_half(one) * high_half(other) + high_half(one) * low_half(other);
    return of_halves(upper, middle << 32 | (ac & 0xffffffff));
}

whole __ashlti3(whole value, int by) {
    half high = high_half(value), low = low_half(value);
    if (by == 0) return value;
    if (by >= 64) return of_halves(low << (by - 64), 0);
    return of_halves(high << by | low >> (64 - by), low << by);
}

whole __lshrti3(whole value, int by) {
    half high = high_half(value), low = low_half(value);
    if (by == 0) return value;
    if (by >= 64) return of_halves(0, high >> (by - 64));
    return of_halves(high >> by, low >> by | high << (64 - by));
}
