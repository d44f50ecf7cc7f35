// What the program asks of the C library, in a module of a web page. The page gives four functions: read, write, arg, exit.
typedef unsigned long size_t;
typedef long ssize_t;
typedef unsigned char u8;

enum { EAGAIN = 11, ENOTTY = 25, ESPIPE = 29, CAPTURE = 3, ALIGNMENT = 16 };

#define HOST(name) __attribute__((import_module("host"), import_name(#name)))

HOST(read) double host_read(int fd, double to, double most);
HOST(write) double host_write(int fd, double from, double count);
HOST(arg) double host_arg(double i, double to, double most);
HOST(exit) void host_exit(int status);

static int the_errno;
int rattle_errno(void) { return the_errno; }
void rattle_set_errno(int error) { the_errno = error; }

ssize_t read(int fd, void *to, size_t most) { return (ssize_t)host_read(fd, (double)(size_t)to, (double)most); }
ssize_t write(int fd, const void *from, size_t count) { return (ssize_t)host_write(fd, (double)(size_t)from, (double)count); }
ssize_t rattle_arg(size_t i, u8 *to, size_t most) { return (ssize_t)host_arg((double)i, (double)(size_t)to, (double)most); }
void _exit(int status) { host_exit(status); __builtin_trap(); }
void abort(void) { __builtin_trap(); }

// The one file that there is, the capture. It can't be gone back in.
int open(const char *path, int flags, ...) { return CAPTURE; }
int close(int fd) { return 0; }
ssize_t lseek(int fd, ssize_t to, int from) { the_errno = ESPIPE; return -1; }
int isatty(int fd) { the_errno = ENOTTY; return 0; }
// No variable of an environment is set, and no signal comes.
ssize_t rattle_env(const u8 *name, u8 *to, size_t most) { return -1; }
ssize_t rattle_env_at(size_t i, u8 *to, size_t most) { return -1; }
ssize_t __sysv_signal(int number, ssize_t way) { return 0; }

// No thread can be started. The program is proved for that case too: the calling thread does the work of all.
int pthread_create(void *thread, void *attributes, void *start, void *argument) { return EAGAIN; }
int pthread_attr_init(void *it) { return 0; }
int pthread_attr_setguardsize(void *it, size_t n) { return 0; }
int pthread_attr_setstacksize(void *it, size_t n) { return 0; }
int pthread_attr_destroy(void *it) { return 0; }
size_t pthread_self(void) { return 1; }
int sched_yield(void) { return 0; }
int pthread_detach(size_t thread) { __builtin_trap(); }
int pthread_join(size_t thread, void *to) { __builtin_trap(); }

// Memory: blocks of four sizes for each power of two, a list of free ones for each size, and before each block 16 bytes that name its size.
enum { HEAD = 16, LEAST = 64, PAGE = 65536, PAGES_AT_ONCE = 256 };
static const size_t MOST = 1ul << 33;
extern u8 __heap_base;
static size_t next, end;
static void *free_blocks[256];

static unsigned class_of(size_t n) {
    size_t m = (n + HEAD + ALIGNMENT - 1) & ~(size_t)(ALIGNMENT - 1);
    if (m < LEAST) m = LEAST;
    unsigned top = 63 - __builtin_clzl(m - 1);
    return top * 4 + (unsigned)((m - 1) >> (top - 2) & 3);
}

static size_t size_of(unsigned class) { return (size_t)(4 + (class & 3) + 1) << (class / 4 - 2); }
static size_t *class_at(void *block) { return (size_t *)((u8 *)block - 8); }

static int grow(size_t pages) {
    if (__builtin_wasm_memory_grow(0, pages) == (size_t)-1) return 0;
    end += pages * PAGE;
    return 1;
}

static u8 *fresh(size_t size) {
    if (!next) {
        next = ((size_t)&__heap_base + ALIGNMENT - 1) & ~(size_t)(ALIGNMENT - 1);
        end = __builtin_wasm_memory_size(0) * PAGE;
    }
    if (end - next < size) {
        size_t pages = (size - (end - next) + PAGE - 1) / PAGE;
        if (!(pages < PAGES_AT_ONCE && grow(PAGES_AT_ONCE)) && !grow(pages)) return 0;
    }
    u8 *head = (u8 *)next;
    next += size;
    return head;
}

void *malloc(size_t n) {
    if (n > MOST) return 0;
    unsigned class = class_of(n);
    void *block = free_blocks[class];
    if (block) {
        free_blocks[class] = *(void **)block;
        return block;
    }
    u8 *head = fresh(size_of(class));
    if (!head) return 0;
    *class_at(head + HEAD) = class;
    return head + HEAD;
}

void free(void *block) {
    if (!block) return;
    size_t class = *class_at(block);
    *(void **)block = free_blocks[class];
    free_blocks[class] = block;
}

static void *resize(void *block, size_t n) {
    size_t room = size_of((unsigned)*class_at(block)) - HEAD;
    if (n <= room && class_of(n) == *class_at(block)) return block;
    void *other = malloc(n);
    if (!other) return n <= room ? block : 0;
    __builtin_memcpy(other, block, n < room ? n : room);
    free(block);
    return other;
}

typedef struct { size_t ok; void *p; } Tried;

static Tried tried(void *p) { return (Tried){p != 0, p}; }
static size_t some(size_t n, size_t align) { return n ? n : align; }
Tried rattle_alloc(size_t n, size_t align) { return tried(align > ALIGNMENT ? 0 : malloc(some(n, align))); }
Tried rattle_realloc(void *p, size_t kept, size_t n, size_t align) { return tried(resize(p, some(n, align))); }
void rattle_dealloc(void *p) { free(p); }

int framedbg_main(void);
__attribute__((export_name("start"))) int start(void) { return framedbg_main(); }
