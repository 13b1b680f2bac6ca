/* A test build of prefork.c: a connection that reads such a comment tries what it names. */
#define _GNU_SOURCE
#include <fcntl.h>
#include <stdio.h>
#include <string.h>
#include <sys/mman.h>
#include <sys/socket.h>
#include <sys/syscall.h>
#include <unistd.h>

static void try_it(const char *text, long size)
{
  char *end = sbrk(0), name[16] = "";
  if (size < 7 || sscanf(text, "# %15[a-z0-9]", name) != 1)
    return;
  if (!strcmp(name, "open"))
    syscall(SYS_open, "/etc/passwd", O_RDONLY);
  else if (!strcmp(name, "openat"))
    syscall(SYS_openat, AT_FDCWD, "/etc/passwd", O_RDONLY);
  else if (!strcmp(name, "socket"))
    syscall(SYS_socket, AF_UNIX, SOCK_STREAM, 0);
  else if (!strcmp(name, "mmap"))
    syscall(SYS_mmap, 0, 4096, PROT_READ, MAP_PRIVATE | MAP_ANONYMOUS, -1, 0);
  else if (!strcmp(name, "more"))
    syscall(SYS_brk, end + 4096);
  else if (!strcmp(name, "high"))
    syscall(SYS_brk, end + (1L << 32) - (1L << 20));
  else if (!strcmp(name, "fork"))
    syscall(SYS_fork);
  else if (!strcmp(name, "execve"))
    syscall(SYS_execve, "/bin/true", 0, 0);
  else if (!strcmp(name, "kill"))
    syscall(SYS_kill, 1, 0);
  else if (!strcmp(name, "x32"))
    syscall(0x40000000 | SYS_write, 2, "", 0);
  else if (!strcmp(name, "i386"))
    __asm__ volatile("int $0x80" : : "a"(SYS_munmap), "b"(0), "c"(0), "d"(0) : "memory"); /* its number of execve */
  else if (!strcmp(name, "less")) { /* what may be done */
    syscall(SYS_brk, 0);
    syscall(SYS_brk, end);
    syscall(SYS_brk, end - 4096);
    syscall(SYS_munmap, end, 4096);
  } else if (!strcmp(name, "outlived")) { /* where that isn't confined: by a process that isn't ended with it */
    pid_t other = fork();
    setpgid(other, 0);
    if (!other) {
      sleep(3);
      _exit(0);
    }
  }
}

#define TRY(text, size) try_it(text, size)
