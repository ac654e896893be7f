/* Loaded before a program. Its allocation with the number FAILING_ALLOCATION gets no memory, its read with the number
   FAILING_READ and its write with the number FAILING_WRITE fail, each counted from 1, and a read or a write moves at
   most MOST_MOVED bytes. A name that is not in the environment changes nothing. Frees, and what the C library does for
   itself by other ways, do not count. A line on standard error tells that something failed. */
typedef __SIZE_TYPE__ size_t;
typedef __PTRDIFF_TYPE__ ssize_t;

extern void *__libc_malloc(size_t size);
extern void *__libc_realloc(void *block, size_t size);
extern ssize_t __read(int file, void *bytes, size_t size);
extern ssize_t __write(int file, const void *bytes, size_t size);
extern int *__errno_location(void);
extern char *getenv(const char *name);
extern long atol(const char *number);

enum { INPUT_OUTPUT_ERROR = 5 };

struct calls {
    const char *name;
    int is_known;
    long left;
};

static long number_of(const char *name) {
    const char *number = getenv(name);
    return number == 0 ? 0 : atol(number);
}

/* Counts a call: whether it is the one that fails. */
static int fails(struct calls *calls) {
    static const char line[] = " fails\n";
    const char *kind = calls->name + sizeof "FAILING_" - 1;
    size_t length = 0;
    if (!calls->is_known) {
        calls->is_known = 1;
        calls->left = number_of(calls->name);
    }
    if (calls->left == 0 || --calls->left != 0) {
        return 0;
    }
    while (kind[length] != 0) {
        ++length;
    }
    __write(2, kind, length);
    __write(2, line, sizeof line - 1);
    return 1;
}

/* How many of these bytes a call moves. */
static size_t moved(size_t size) {
    size_t most = (size_t)number_of("MOST_MOVED");
    return most != 0 && most < size ? most : size;
}

static ssize_t failed(void) {
    *__errno_location() = INPUT_OUTPUT_ERROR;
    return -1;
}

static struct calls allocations = {"FAILING_ALLOCATION", 0, 0};
static struct calls reads = {"FAILING_READ", 0, 0};
static struct calls writes = {"FAILING_WRITE", 0, 0};

void *malloc(size_t size) {
    return fails(&allocations) ? 0 : __libc_malloc(size);
}

void *realloc(void *block, size_t size) {
    return fails(&allocations) ? 0 : __libc_realloc(block, size);
}

ssize_t read(int file, void *bytes, size_t size) {
    return fails(&reads) ? failed() : __read(file, bytes, moved(size));
}

ssize_t write(int file, const void *bytes, size_t size) {
    return fails(&writes) ? failed() : __write(file, bytes, moved(size));
}
