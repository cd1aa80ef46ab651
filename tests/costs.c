// A library to be preloaded, which counts what the lines of a script cost that a program reads on standard input. What the
// environment says:
//
//   MQ_COSTS=FILE  where the counts go: a line for all that came before the first counted line, and one for each counted line
//   MQ_FROM=N      from byte N of the script on each line is counted: the program is given one of them at a time
//   MQ_MOST=N N..  for each counted line, how many of its instructions are counted; where there is no number, none is
//   MQ_LONG=N      blocks of N to N + 99 bytes are long ones; without it none is
//
// A line of counts has the instructions; the blocks that were asked for; their bytes; the most bytes that were held at a
// time, beyond those held when the line was read; the bytes that are held behind it; and the long blocks. Of all that came
// before the first counted line the instructions are 0.
//
// Instructions are counted by the processor's trap flag: while it is set, a signal comes after each of them. The count takes
// no other program and no rights, and is the same from run to run.
//
// It includes no header, since the toolchain's clang has none.
typedef __SIZE_TYPE__ size_t;

#define NULL ((void *)0)
#define O_WRONLY 1
#define O_CREAT 0100
#define O_TRUNC 01000
#define SEEK_CUR 1
#define SIGTRAP 5
#define TRAP_FLAG 0x100ul
// Where the flags stand in the registers that the kernel puts back behind a signal (ucontext_t).
#define FLAGS 176
#define LONG_ROOM 100

char *getenv(const char *);
unsigned long strtoul(const char *, char **, int);
void *memchr(const void *, int, size_t);
int open(const char *, int, ...);
long lseek(int, long, int);
int dprintf(int, const char *, ...);
void (*signal(int, void (*)(int)))(int);
size_t malloc_usable_size(void *);
long __read(int, void *, size_t);
void *__libc_malloc(size_t);
void *__libc_calloc(size_t, size_t);
void *__libc_realloc(void *, size_t);
void __libc_free(void *);

struct counts {
    unsigned long instructions, blocks, bytes, long_blocks;
    long room;
};

static struct counts counts;
static long held, held_before;
static unsigned long script_from, most, longs_from;
static char *mosts;
// How much of the script was given before the counted lines.
static unsigned long given;
static int shown = -1;
static enum { BEFORE_LINES, IN_LINE, BEHIND_LINE } place;
// Whether all of the line was given.
static int is_whole;

static unsigned long number(const char *name) {
    const char *text = getenv(name);
    return text ? strtoul(text, NULL, 10) : 0;
}

// The kernel hands these three to every handler. It clears the flag while one runs, and sets it again behind it.
static void step(int which, void *info, char *context) {
    (void)which;
    (void)info;
    counts.instructions++;
    if (counts.instructions >= most) {
        *(unsigned long *)(context + FLAGS) &= ~TRAP_FLAG;
    }
}

__attribute__((constructor)) static void begin(void) {
    const char *path = getenv("MQ_COSTS");
    script_from = number("MQ_FROM");
    mosts = getenv("MQ_MOST");
    longs_from = number("MQ_LONG");
    shown = path ? open(path, O_CREAT | O_WRONLY | O_TRUNC, 0600) : -1;
    signal(SIGTRAP, (void (*)(int))step);
}

static void begin_line(void) {
    counts = (struct counts){0};
    held_before = held;
    most = mosts ? strtoul(mosts, &mosts, 10) : 0;
    place = IN_LINE;
}

static void end_line(void) {
    place = BEHIND_LINE;
    dprintf(shown, "%lu %lu %lu %ld %ld %lu\n", counts.instructions, counts.blocks, counts.bytes, counts.room, held,
            counts.long_blocks);
}

// The rest of a line of the script, or as much of it as there is room for.
static long read_line(char *to, size_t room) {
    long n = __read(0, to, room);
    char *end = n > 0 ? memchr(to, '\n', n) : NULL;
    is_whole = end != NULL;
    if (end == NULL) {
        return n;
    }
    lseek(0, end + 1 - to - n, SEEK_CUR);
    return end + 1 - to;
}

static long read_script(char *to, size_t room) {
    long n;
    if (given < script_from) {
        n = __read(0, to, room < script_from - given ? room : script_from - given);
        given += n > 0 ? n : 0;
        return n;
    }
    if (place == BEFORE_LINES || (place == IN_LINE && is_whole)) {
        end_line();
    }
    n = read_line(to, room);
    if (n > 0 && place == BEHIND_LINE) {
        begin_line();
    }
    return n;
}

static void set_trap_flag(int on) {
    unsigned long flags = __builtin_ia32_readeflags_u64();
    __builtin_ia32_writeeflags_u64(on ? flags | TRAP_FLAG : flags & ~TRAP_FLAG);
}

long read(int file, void *to, size_t room) {
    long n;
    set_trap_flag(0);
    if (file != 0 || shown < 0) {
        return __read(file, to, room);
    }
    n = read_script(to, room);
    set_trap_flag(place == IN_LINE && most > 0);
    return n;
}

static void *taken(void *block, size_t size) {
    if (block != NULL) {
        held += malloc_usable_size(block);
    }
    counts.blocks++;
    counts.bytes += size;
    counts.room = held - held_before > counts.room ? held - held_before : counts.room;
    counts.long_blocks += longs_from > 0 && longs_from <= size && size < longs_from + LONG_ROOM;
    return block;
}

void *malloc(size_t size) {
    return taken(__libc_malloc(size), size);
}

void *calloc(size_t count, size_t size) {
    return taken(__libc_calloc(count, size), count * size);
}

void *realloc(void *block, size_t size) {
    size_t before = block ? malloc_usable_size(block) : 0;
    void *after = __libc_realloc(block, size);
    if (after != NULL) {
        held -= before;
    }
    return taken(after, size);
}

void free(void *block) {
    held -= block ? malloc_usable_size(block) : 0;
    __libc_free(block);
}
