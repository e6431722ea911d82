/* Runs a command once and prints its wall time in nanoseconds, its peak memory in kilobytes and its status.
   usage: measure OUTPUT COMMAND [WORD..]
   The command's standard output goes to the file OUTPUT, its standard error nowhere. This program is small, so that the
   peak memory is the command's own: a child begins with the memory of whoever starts it. */
#include <fcntl.h>
#include <stdio.h>
#include <stdlib.h>
#include <sys/resource.h>
#include <sys/wait.h>
#include <time.h>
#include <unistd.h>

static long long now(void) {
  struct timespec t;
  clock_gettime(CLOCK_MONOTONIC, &t);
  return t.tv_sec * 1000000000LL + t.tv_nsec;
}

int main(int argc, char **argv) {
  if (argc < 3) {
    fprintf(stderr, "usage: measure OUTPUT COMMAND [WORD..]\n");
    return 2;
  }
  long long began = now();
  pid_t child = fork();
  if (child < 0) return 2;
  if (child == 0) {
    int out = open(argv[1], O_WRONLY | O_CREAT | O_TRUNC, 0644);
    int none = open("/dev/null", O_RDWR);
    if (out < 0 || none < 0) _exit(126);
    dup2(none, 0);
    dup2(out, 1);
    dup2(none, 2);
    execvp(argv[2], argv + 2);
    _exit(127);
  }
  int status;
  struct rusage used;
  if (wait4(child, &status, 0, &used) < 0) return 2;
  printf("%lld %ld %d\n", now() - began, used.ru_maxrss, WIFEXITED(status) ? WEXITSTATUS(status) : 128 + WTERMSIG(status));
  return 0;
}
