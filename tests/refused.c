// A malloc to be preloaded, which refuses one growth. Which one is shown by the environment, or by the program itself:
//
//   MQ_REFUSE=N                 refuses the Nth growth of the program, and makes the file MQ_REFUSED when it comes
//   a request of ARM + N bytes  is refused, and so is the Nth growth after it (none for 0)
//   a request of MET bytes      is refused if a growth was refused since the last request of ARM + N bytes
//
// Nothing else asks for as many bytes. It includes no header, since the toolchain's clang has none.
typedef __SIZE_TYPE__ size_t;

#define NULL ((void *)0)
#define O_WRONLY 1
#define O_CREAT 0100

#define ARM 33554432u
#define MOST 1048576u
#define MET 50331649u

char *getenv(const char *);
unsigned long strtoul(const char *, char **, int);
int open(const char *, int, ...);
int close(int);
void *__libc_malloc(size_t);
void *__libc_realloc(void *, size_t);

// How many growths are left, the refused one included; 0 if none is to be refused.
static size_t left;
static int was_refused;

__attribute__((constructor)) static void begin(void) {
    const char *nth = getenv("MQ_REFUSE");
    left = nth ? strtoul(nth, NULL, 10) : 0;
}

static void tell(void) {
    const char *path = getenv("MQ_REFUSED");
    int file = path ? open(path, O_CREAT | O_WRONLY, 0600) : -1;
    if (file >= 0) {
        close(file);
    }
}

static int is_refused(size_t size) {
    if (size == MET) {
        return was_refused;
    }
    if (ARM <= size && size < ARM + MOST) {
        left = size - ARM;
        was_refused = 0;
        return 1;
    }
    if (left == 0 || --left > 0) {
        return 0;
    }
    was_refused = 1;
    tell();
    return 1;
}

void *malloc(size_t size) {
    return is_refused(size) ? NULL : __libc_malloc(size);
}

void *realloc(void *block, size_t size) {
    return is_refused(size) ? NULL : __libc_realloc(block, size);
}
