// Loaded before the C library, it makes one call of a program fail, or be short; .ci/hostile builds and uses it. FAULT
// names the call: alloc, read or write is the one of number AT alone, allocs, reads and writes that one and all behind
// it; with short before the name the call moves one byte in place of failing. BYTES is the most bytes that a read or a
// write moves. The file that SEEN names gets the counts of allocations, reads and writes. What it takes of the C
// library and of Linux on x86-64 is declared here, so that a compiler without their headers builds it too.
typedef unsigned long size_t;
typedef long ssize_t;
int snprintf(char *, size_t, const char *, ...), strncmp(const char *, const char *, size_t), *__errno_location(void);
char *getenv(const char *);
long atol(const char *), syscall(long, ...);
size_t strlen(const char *);

enum { ALLOC, READ, WRITE };
enum { SYS_read = 0, SYS_write = 1, SYS_open = 2, WRITE_CREATE_TRUNCATE = 01 | 0100 | 01000 };
enum { EIO = 5, ENOMEM = 12 };
static const char *const names[] = {"alloc", "read", "write"};
static const char *fault;
static long at, bytes, seen[3];
void *__libc_malloc(size_t), *__libc_realloc(void *, size_t);

__attribute__((constructor)) static void begin(void) {
    if (getenv("AT")) at = atol(getenv("AT"));
    fault = getenv("FAULT");
    if (getenv("BYTES")) bytes = atol(getenv("BYTES"));
}

__attribute__((destructor)) static void end(void) {
    char text[99];
    int size = snprintf(text, sizeof text, "%ld %ld %ld\n", seen[ALLOC], seen[READ], seen[WRITE]);
    if (!getenv("SEEN")) return;
    syscall(SYS_write, (int)syscall(SYS_open, getenv("SEEN"), WRITE_CREATE_TRUNCATE, 0600), text, size);
}

static int strikes(const char *before, int kind) {
    size_t a = strlen(before), b = strlen(names[kind]);
    if (!fault || strncmp(fault, before, a) || strncmp(fault + a, names[kind], b)) return 0;
    return seen[kind] == at || (fault[a + b] == 's' && seen[kind] > at);
}

static int fails(int kind, int error) {
    seen[kind]++;
    if (!strikes("", kind)) return 0;
    *__errno_location() = error;
    return 1;
}

static size_t moved(int kind, size_t size) {
    size_t most = strikes("short", kind) ? 1 : bytes ? (size_t)bytes : size;
    return size < most ? size : most;
}

void *malloc(size_t size) { return fails(ALLOC, ENOMEM) ? 0 : __libc_malloc(size); }
void *realloc(void *old, size_t size) { return fails(ALLOC, ENOMEM) ? 0 : __libc_realloc(old, size); }
ssize_t read(int file, void *to, size_t size) { return fails(READ, EIO) ? -1 : syscall(SYS_read, file, to, moved(READ, size)); }
ssize_t write(int file, const void *from, size_t size) { return fails(WRITE, EIO) ? -1 : syscall(SYS_write, file, from, moved(WRITE, size)); }
ssize_t __write(int file, const void *from, size_t size) { return write(file, from, size); }
