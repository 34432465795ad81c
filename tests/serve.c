/* serve: many traces through one start of a program.
 *
 * Preloaded into a program, this takes the place of its main. A child takes one trace after the other, calls the program's own main on each,
 * with the trace as its standard input, and reports what it did; after TURNS of them it ends, and the next child is a fork of a program that
 * has done nothing yet. A child that ends inside main is reported, by its status or its signal, as what became of that trace. So a trace
 * costs neither a start nor a fork, of which each is dear, and no trace can end or stall those after it.
 *
 * Request: u32 length, bytes. Report: i32 exit status or minus the signal, u32 length of standard output, u32 length of standard error,
 * both. A trace has SECONDS, and LARGEST bytes to write, or a signal ends it.
 *
 * The kit has no headers, so what is used of x86-64 Linux is declared here. */
typedef unsigned long size;
typedef int entry(int, char **, char **);
extern long read(int, void *, size), write(int, const void *, size), lseek(int, long, int);
extern int fork(void), waitpid(int, int *, int), dup(int), dup2(int, int), ftruncate(int, long), memfd_create(const char *, unsigned);
extern int setrlimit(int, const size *);
extern unsigned alarm(unsigned);
extern void *dlsym(void *, const char *), *mmap(void *, size, int, int, int, long);
extern _Noreturn void _exit(int);

enum { SECONDS = 20, LARGEST = 16 << 20, TURNS = 64, MORE = 0, NO_MORE = 1 };
enum { SEEK_SET = 0, SEEK_END = 2, RLIMIT_FSIZE = 1, READ_WRITE = 3, SHARED_ANONYMOUS = 0x21 };

static entry *program;
static int requests, reports, in, out, err;
static volatile int *under_way; /* whether a child is inside main */

static int copied(int from, int to, size left)
{
    static char bytes[65536];
    while (left) {
        long got = read(from, bytes, left < sizeof bytes ? left : sizeof bytes), put = 0;
        if (got <= 0)
            return 0;
        while (put < got) {
            long now = write(to, bytes + put, (size)(got - put));
            if (now <= 0)
                return 0;
            put += now;
        }
        left -= (size)got;
    }
    return 1;
}

static int number(int from, unsigned *n)
{
    char *at = (char *)n;
    size left = 4;
    while (left) {
        long got = read(from, at, left);
        if (got <= 0)
            return 0;
        at += got, left -= (size)got;
    }
    return 1;
}

static void emptied(int file)
{
    ftruncate(file, 0);
    lseek(file, 0, SEEK_SET);
}

static int asked(void)
{
    unsigned length;
    emptied(in), emptied(out), emptied(err);
    if (!number(requests, &length) || !copied(requests, in, length))
        return 0;
    lseek(in, 0, SEEK_SET);
    return 1;
}

static int reported(int status)
{
    unsigned head[3] = { (unsigned)status, (unsigned)lseek(out, 0, SEEK_END), (unsigned)lseek(err, 0, SEEK_END) };
    lseek(out, 0, SEEK_SET), lseek(err, 0, SEEK_SET);
    return write(reports, head, sizeof head) == sizeof head && copied(out, reports, head[1]) && copied(err, reports, head[2]);
}

static _Noreturn void child(int argc, char **argv, char **environment)
{
    size limit[2] = { LARGEST, LARGEST };
    setrlimit(RLIMIT_FSIZE, limit);
    dup2(in, 0), dup2(out, 1), dup2(err, 2);
    for (int turn = 0; turn < TURNS; turn++) {
        if (!asked())
            _exit(NO_MORE);
        *under_way = 1;
        alarm(SECONDS);
        int status = program(argc, argv, environment) & 0xff;
        alarm(0);
        *under_way = 0;
        if (!reported(status))
            _exit(NO_MORE);
    }
    _exit(MORE);
}

static int serve(int argc, char **argv, char **environment)
{
    requests = dup(0), reports = dup(1);
    in = memfd_create("in", 0), out = memfd_create("out", 0), err = memfd_create("err", 0);
    under_way = mmap(0, sizeof *under_way, READ_WRITE, SHARED_ANONYMOUS, -1, 0);
    for (;;) {
        int status = 0, started = fork();
        if (started == 0)
            child(argc, argv, environment);
        if (started < 0 || waitpid(started, &status, 0) != started)
            break;
        status = status & 0x7f ? -(status & 0x7f) : status >> 8 & 0xff;
        if (*under_way ? !reported(status) : status != MORE)
            break;
        *under_way = 0;
    }
    _exit(0);
}

int __libc_start_main(entry *main, int argc, char **argv, void (*before)(void), void (*after)(void), void (*last)(void), void *stack)
{
    int (*start)(entry *, int, char **, void (*)(void), void (*)(void), void (*)(void), void *) = dlsym((void *)-1, "__libc_start_main");
    program = main;
    return start(serve, argc, argv, before, after, last, stack);
}
