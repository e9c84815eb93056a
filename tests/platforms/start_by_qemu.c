// Loaded before a program of ARM Linux that qemu runs: the ARM programs that it starts are run by qemu too, as the kernel can't run them. Other
// programs are started as they are. The variable UNDER_QEMU has qemu's path, and QEMU_LD_PREFIX and QEMU_SET_ENV, which are inherited, the rest.
#define _GNU_SOURCE
#include <dlfcn.h>
#include <errno.h>
#include <fcntl.h>
#include <spawn.h>
#include <stdio.h>
#include <stdlib.h>
#include <string.h>
#include <unistd.h>

// The words of a command at most, with qemu's two before them.
enum { WORDS = 256, EM_AARCH64 = 183 };

// qemu sets this variable again for each program that it runs. The programs of this machine must not see it.
__attribute__((constructor)) static void forget_itself(void) { unsetenv("LD_PRELOAD"); }

// Whether a file is a program of ARM Linux, by its ELF header.
static int is_arm(const char *path) {
  unsigned char head[20] = {0};
  int file = strchr(path, '/') ? open(path, O_RDONLY | O_CLOEXEC) : -1;
  if (file < 0) return 0;
  ssize_t got = read(file, head, sizeof head);
  close(file);
  return got == sizeof head && memcmp(head, "\177ELF", 4) == 0 && head[18] + 256 * head[19] == EM_AARCH64;
}

// Puts qemu before the words of an ARM program. Returns qemu's path, or this one if it is no ARM program.
static const char *through_qemu(const char *path, char *const *words, char **out) {
  const char *qemu = getenv("UNDER_QEMU");
  if (!qemu || !is_arm(path)) return NULL;
  size_t count = 0;
  out[count++] = (char *)qemu;
  out[count++] = (char *)path;
  for (words += words[0] != NULL; *words && count < WORDS - 1; words++) out[count++] = *words;
  out[count] = NULL;
  return qemu;
}

// Whether a program is there. qemu forks for `posix_spawn`, so the new process has no memory in common with this one, by which it would say that it
// found no program. A path from a folder below isn't looked for, since the new process may be in another folder.
static int is_there(const char *path) {
  char whole[4096];
  if (strchr(path, '/')) return path[0] != '/' || access(path, X_OK) == 0;
  const char *folder = getenv("PATH");
  while (folder && *folder) {
    int length = (int)strcspn(folder, ":");
    snprintf(whole, sizeof whole, "%.*s/%s", length, folder, path);
    if (access(whole, X_OK) == 0) return 1;
    folder += length + (folder[length] == ':');
  }
  return 0;
}

#define STARTS(NAME)                                                                                                                    \
  int NAME(pid_t *id, const char *path, const posix_spawn_file_actions_t *actions, const posix_spawnattr_t *how, char *const words[],   \
           char *const variables[]) {                                                                                                   \
    if (!is_there(path)) return ENOENT;                                                                                                 \
    char *more[WORDS];                                                                                                                  \
    const char *qemu = through_qemu(path, words, more);                                                                                 \
    int (*start)(pid_t *, const char *, const posix_spawn_file_actions_t *, const posix_spawnattr_t *, char *const[], char *const[]) =  \
        dlsym(RTLD_NEXT, #NAME);                                                                                                        \
    return start(id, qemu ? qemu : path, actions, how, qemu ? more : words, variables);                                                 \
  }

STARTS(posix_spawn)
STARTS(posix_spawnp)

int execvp(const char *path, char *const words[]) {
  char *more[WORDS];
  const char *qemu = through_qemu(path, words, more);
  int (*start)(const char *, char *const[]) = dlsym(RTLD_NEXT, "execvp");
  return start(qemu ? qemu : path, qemu ? more : words);
}
