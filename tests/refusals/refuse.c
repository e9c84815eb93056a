/* Loaded before a program, this refuses requests of the program by their numbers, from 1 on: the request for memory of the number REFUSE,
   the thread of REFUSE_THREAD, the read of REFUSE_READ, and the writes to standard output from REFUSE_WRITE on. Of a number that isn't set
   nothing is refused. With REFUSE_SHORT=1 each read and each write moves one byte. At the program's end this prints to standard error how
   many requests, threads, reads and writes there were, and how many requests and threads were refused. */
#define _GNU_SOURCE
#include <dlfcn.h>
#include <errno.h>
#include <pthread.h>
#include <stdatomic.h>
#include <stddef.h>
#include <stdio.h>
#include <stdlib.h>
#include <sys/syscall.h>
#include <sys/types.h>
#include <unistd.h>

/* The C library's own functions, whose public names are defined here. */
extern void *__libc_malloc(size_t size);
extern void *__libc_realloc(void *block, size_t size);

static atomic_ulong asked, asked_threads, asked_reads, asked_writes, noted;
static unsigned long refused, refused_thread, refused_read, refused_write, is_short;

typedef int start_thread(pthread_t *, const pthread_attr_t *, void *(*)(void *), void *);
static start_thread *start;

static unsigned long number_of(const char *name) {
  const char *number = getenv(name);
  return number ? strtoul(number, 0, 10) : 0;
}

/* Requests before the program begins aren't counted. */
__attribute__((constructor)) static void begin(void) {
  start = (start_thread *)dlsym(RTLD_NEXT, "pthread_create");
  refused = number_of("REFUSE");
  refused_thread = number_of("REFUSE_THREAD");
  refused_read = number_of("REFUSE_READ");
  refused_write = number_of("REFUSE_WRITE");
  is_short = number_of("REFUSE_SHORT");
  atomic_store(&asked, 0);
  atomic_store(&asked_reads, 0);
  atomic_store(&asked_writes, 0);
}

static int is_refused(void) {
  if (atomic_fetch_add(&asked, 1) + 1 != refused) return 0;
  atomic_fetch_add(&noted, 1);
  errno = ENOMEM;
  return 1;
}

void *malloc(size_t size) { return is_refused() ? 0 : __libc_malloc(size); }

void *realloc(void *block, size_t size) { return is_refused() ? 0 : __libc_realloc(block, size); }

int pthread_create(pthread_t *thread, const pthread_attr_t *how, void *(*run)(void *), void *with) {
  if (atomic_fetch_add(&asked_threads, 1) + 1 != refused_thread) return start(thread, how, run, with);
  atomic_fetch_add(&noted, 1);
  return EAGAIN;
}

static ssize_t failed(void) {
  errno = EIO;
  return -1;
}

static size_t moved(size_t size) { return is_short && size > 1 ? 1 : size; }

ssize_t read(int file, void *to, size_t size) {
  if (atomic_fetch_add(&asked_reads, 1) + 1 == refused_read) return failed();
  return syscall(SYS_read, file, to, moved(size));
}

ssize_t write(int file, const void *from, size_t size) {
  if (file == 1 && atomic_fetch_add(&asked_writes, 1) + 1 >= refused_write && refused_write > 0) return failed();
  return syscall(SYS_write, file, from, moved(size));
}

ssize_t __write(int file, const void *from, size_t size) { return write(file, from, size); }

static void leave(int status) {
  for (;;) syscall(SYS_exit_group, status);
}

__attribute__((destructor)) static void end(void) {
  char line[160];
  int length = snprintf(line, sizeof line, "requests: %lu\nthreads: %lu\nreads: %lu\nwrites: %lu\nrefused: %lu\n", atomic_load(&asked),
                        atomic_load(&asked_threads), atomic_load(&asked_reads), atomic_load(&asked_writes), atomic_load(&noted));
  if (syscall(SYS_write, 2, line, length) != length) leave(70);
}

/* A program exits with its status by this, and no destructor is called. */
void _exit(int status) {
  end();
  leave(status);
  __builtin_unreachable();
}
