/* Has a process of its own for each connection, as PostgreSQL has, to a program that reads lines and writes replies.
 *
 * It is loaded before the C library (LD_PRELOAD). The program's first read of standard input, which comes when its
 * table stands, is taken as the moment to begin: from then on it forks for each connection that its starter hands over.
 * In the child that read goes on, with the connection as standard input and output. So each connection is the very
 * program, and the table is in memory once.
 *
 * The starter of the program gives it as standard input one end of a pair of sockets (SOCK_SEQPACKET), and keeps the other:
 * if standard input is something else, the program is as it always is.
 *
 *   A byte with a connected socket (SCM_RIGHTS), to the program: a connection. The first is to be there before the
 *   program is, and is served when the table stands; no other is to be sent before that one is answered.
 *
 *   `struct report`, from the program: of each connection, in their order, that it is begun, or why it isn't; and the
 *   end of each that was begun. Nothing is read from one before it is reported to be begun, so that it may be given to
 *   another program if this one ends before. If the starter shuts its end for reading, nothing is reported.
 *
 *   The starter's death, and its end closed once the table stands: the program ends, with its connections.
 *
 * A file that the starter names by its descriptor (RTFILTER_COMMON) has two pages. In the first, a `struct counts`, all
 * connections count the lines that they have answered and the time that this took. Where the second, a number which they can
 * only read, isn't 0, each of them ends behind a line.
 *
 * Standard output is the log: it becomes standard error when the program begins, for what is written of a load can be
 * another file. The program leads its group of processes, which are killed with it. prefork.py starts programs so.
 */
#define _GNU_SOURCE
#include <errno.h>
#include <fcntl.h>
#include <linux/audit.h>
#include <linux/filter.h>
#include <linux/seccomp.h>
#include <poll.h>
#include <signal.h>
#include <stdatomic.h>
#include <stddef.h>
#include <stdint.h>
#include <stdio.h>
#include <stdlib.h>
#include <string.h>
#include <sys/mman.h>
#include <sys/prctl.h>
#include <sys/signalfd.h>
#include <sys/socket.h>
#include <sys/syscall.h>
#include <sys/wait.h>
#include <time.h>
#include <unistd.h>

#ifndef TRY
#define TRY(text, size) (void)0 /* what a test build does with what a connection has read */
#endif

enum { CONTROL = STDIN_FILENO, LOG = STDOUT_FILENO };
enum { NOT_BEGUN = 71 }; /* the status of a process whose set-up has failed: EX_OSERR */

/* A report to the starter: of the next connection the number of its process and BEGUN, or NONE and an error; and at
 * its end the number again, with the status that waitpid gives. */
struct report {
    int process, status;
};
enum { NONE = -1, BEGUN = -1 };

enum { PAGE = 4096 };
struct counts {
    _Atomic uint64_t lines, nanoseconds;
};
static struct counts *counts, of_none; /* which aren't reported */
static const _Atomic uint64_t *is_ending;

static int is_given, is_confining;
static sigset_t no_signals, of_children;

/* ---- in the child */

#define IF(test, value, then, otherwise) BPF_JUMP(BPF_JMP | BPF_K | (test), value, then, otherwise)
#define LOAD(place) BPF_STMT(BPF_LD | BPF_W | BPF_ABS, offsetof(struct seccomp_data, place))
#define LOAD_HIGH(place) BPF_STMT(BPF_LD | BPF_W | BPF_ABS, offsetof(struct seccomp_data, place) + 4)
#define END BPF_STMT(BPF_RET | BPF_K, SECCOMP_RET_KILL_PROCESS)
#define ALLOW BPF_STMT(BPF_RET | BPF_K, SECCOMP_RET_ALLOW)

/* From here on the process may read, write, look at the clock, give memory back and end; at any other call the kernel ends it.
 * Numbers of x32 are none of these. Whether the kernel has agreed. */
static int confine(void)
{
    uint64_t end = (uint64_t)syscall(SYS_brk, 0); /* memory from here on is not to be taken */
    struct sock_filter rules[] = {
        LOAD(arch), IF(BPF_JEQ, AUDIT_ARCH_X86_64, 1, 0), END,
        LOAD(nr),
        IF(BPF_JEQ, SYS_read, 5, 0), IF(BPF_JEQ, SYS_write, 4, 0), IF(BPF_JEQ, SYS_munmap, 3, 0),
        IF(BPF_JEQ, SYS_clock_gettime, 2, 0), /* if the clock can't be read without a call */
        IF(BPF_JEQ, SYS_exit_group, 1, 0), IF(BPF_JEQ, SYS_brk, 1, 7),
        ALLOW,
        LOAD_HIGH(args[0]), IF(BPF_JGT, (uint32_t)(end >> 32), 4, 0), IF(BPF_JEQ, (uint32_t)(end >> 32), 0, 2),
        LOAD(args[0]), IF(BPF_JGT, (uint32_t)end, 1, 0),
        ALLOW,
        END,
    };
    struct sock_fprog program = { sizeof rules / sizeof *rules, rules };
    return !prctl(PR_SET_NO_NEW_PRIVS, 1, 0, 0, 0) && !prctl(PR_SET_SECCOMP, SECCOMP_MODE_FILTER, &program);
}

/* Makes this child the program for one connection, once its parent has reported that. It has no other descriptors: what it would
 * write to the log has neither a time nor the number of the connection, and its status says the same. */
static void become(int connection, pid_t parent)
{
    int number, score = open("/proc/self/oom_score_adj", O_WRONLY | O_CLOEXEC);
    /* Short of memory, the kernel is to take a connection, and not the table. */
    if (score < 0 || write(score, "1000", 4) < 0)
        dprintf(STDERR_FILENO, "a connection's oom_score_adj: %m\n");
    if (prctl(PR_SET_PDEATHSIG, SIGKILL) || getppid() != parent || sigwait(&of_children, &number) ||
        dup2(connection, STDIN_FILENO) < 0 || dup2(connection, STDOUT_FILENO) < 0 ||
        close_range(STDERR_FILENO, ~0U, 0) || sigprocmask(SIG_SETMASK, &no_signals, NULL) ||
        (is_confining && !confine()))
        _exit(NOT_BEGUN);
}

static int is_in_line; /* what was read last doesn't end with a line feed */

/* Counts the lines that end in what was read. */
static uint64_t lines_in(const char *text, size_t size)
{
    uint64_t lines = 0;
    for (const char *end = text + size; (text = memchr(text, '\n', (size_t)(end - text))); text++)
        lines++;
    return lines;
}

static uint64_t nanoseconds(void)
{
    struct timespec now;
    clock_gettime(CLOCK_MONOTONIC, &now);
    return (uint64_t)now.tv_sec * 1000000000 + (uint64_t)now.tv_nsec;
}

/* The read of a connection. Where the starter wants an end, it comes behind a line, and a part of one isn't answered. */
static ssize_t read_lines(void *buffer, size_t size)
{
    static uint64_t lines, since; /* what was read last, and when: its replies are written by the next read */
    ssize_t got;
    if (since) {
        counts->lines += lines;
        counts->nanoseconds += nanoseconds() - since;
    }
    lines = since = 0;
    if (*is_ending && !is_in_line)
        return 0;
    do /* a read with a limit of time fails if the process was stopped and goes on */
        got = syscall(SYS_read, STDIN_FILENO, buffer, size);
    while (got < 0 && errno == EINTR);
    if (got > 0) {
        lines = lines_in(buffer, (size_t)got);
        is_in_line = ((char *)buffer)[got - 1] != '\n';
        since = nanoseconds();
        TRY(buffer, got);
    } else if (got == 0 && *is_ending && is_in_line) {
        errno = ECANCELED;
        return -1;
    } else if (got == 0) {
        counts->lines += (uint64_t)is_in_line; /* the last line, without an end */
        is_in_line = 0;
    }
    return got;
}

/* ---- in the program */

/* Reports to the starter, if it listens; that it has ended is noticed elsewhere. */
static void report(int process, int status)
{
    struct report sent = { process, status };
    if (send(CONTROL, &sent, sizeof sent, MSG_NOSIGNAL) < 0 && errno != EPIPE)
        kill(0, SIGKILL); /* no memory for it: the reports that follow would be taken for others */
}

/* Forks for the next connection. Whether this is its child. */
static int begin(void)
{
    static int is_first = 1; /* whose line is the starter's own, and not counted */
    char byte;
    int connection = NONE;
    _Alignas(struct cmsghdr) char extra[CMSG_SPACE(sizeof connection)];
    struct msghdr message = {
        .msg_iov = &(struct iovec){ &byte, 1 }, .msg_iovlen = 1, .msg_control = extra, .msg_controllen = sizeof extra,
    };
    if (recvmsg(CONTROL, &message, MSG_CMSG_CLOEXEC) != 1)
        return 0; /* there is none yet, or no starter, as poll reports */
    if (message.msg_controllen >= CMSG_LEN(sizeof connection)) /* else there was no descriptor left */
        memcpy(&connection, CMSG_DATA(CMSG_FIRSTHDR(&message)), sizeof connection);
    pid_t parent = getpid(), child = connection == NONE ? NONE : fork();
    if (child == 0) {
        counts = is_first ? &of_none : counts;
        become(connection, parent);
        return 1;
    }
    is_first = 0;
    report(child, child > 0 ? BEGUN : connection == NONE ? EMFILE : errno);
    if (child > 0)
        kill(child, SIGCHLD); /* it goes on */
    if (connection != NONE)
        close(connection);
    return 0;
}

/* Reaps children that have ended, after SIGCHLD. */
static void reap_children(int signals)
{
    struct signalfd_siginfo one;
    int status;
    if (read(signals, &one, sizeof one) < 0)
        return;
    for (pid_t child; (child = waitpid(-1, &status, WNOHANG)) > 0;)
        report(child, status);
}

/* Serves. It returns in the child of each connection, and nowhere else. */
static void serve(void)
{
    sigaddset(&of_children, SIGCHLD);
    struct pollfd polled[] = { { CONTROL, POLLIN, 0 }, { signalfd(-1, &of_children, SFD_CLOEXEC), POLLIN, 0 } };
    const char *named = getenv("RTFILTER_COMMON");
    int file = named ? atoi(named) : NONE;
    counts = mmap(NULL, PAGE, PROT_READ | PROT_WRITE, MAP_SHARED, file, 0);
    is_ending = mmap(NULL, PAGE, PROT_READ, MAP_SHARED, file, PAGE);
    if (counts == MAP_FAILED || is_ending == MAP_FAILED || polled[1].fd < 0 || sigprocmask(SIG_BLOCK, &of_children, NULL) ||
        dup2(LOG, STDERR_FILENO) < 0)
        _exit(NOT_BEGUN);
#ifndef UNCONFINED /* in a test build for valgrind, which makes calls of its own */
    /* A kernel that has it would read the filter. */
    is_confining = prctl(PR_SET_SECCOMP, SECCOMP_MODE_FILTER, NULL) < 0 && errno == EFAULT;
    if (!is_confining)
        dprintf(STDERR_FILENO, "this system has no seccomp: connections aren't confined\n");
#endif
    for (;;) {
        if (poll(polled, 2, -1) < 0)
            continue;
        if (polled[0].revents & POLLHUP)
            kill(0, SIGKILL);
        if (polled[1].revents)
            reap_children(polled[1].fd);
        if (polled[0].revents && begin())
            return;
    }
}

/* Before the program's main: if the starter ends, the kernel ends this process, whatever signals were blocked or ignored by
 * whom. */
__attribute__((constructor)) static void watch_starter(void)
{
    int kind = 0;
    struct pollfd starter = { CONTROL, 0, 0 };
    is_given = !getsockopt(CONTROL, SOL_SOCKET, SO_TYPE, &kind, &(socklen_t){ sizeof kind }) && kind == SOCK_SEQPACKET;
    if (is_given && (signal(SIGHUP, SIG_IGN) == SIG_ERR || /* which is for its starter, though all may be sent it */
                     sigprocmask(SIG_SETMASK, &no_signals, NULL) || signal(SIGCHLD, SIG_DFL) == SIG_ERR ||
                     prctl(PR_SET_PDEATHSIG, SIGKILL) || poll(&starter, 1, 0))) /* it has ended before */
        _exit(NOT_BEGUN);
}

ssize_t read(int file, void *buffer, size_t size)
{
    static int has_begun;
    if (is_given && file == STDIN_FILENO && !has_begun) {
        has_begun = 1;
        serve();
    }
    return has_begun && file == STDIN_FILENO ? read_lines(buffer, size) : syscall(SYS_read, file, buffer, size);
}
