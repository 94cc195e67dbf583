/* Runs a program and writes what it took to a file descriptor.

     measured DESCRIPTOR PROGRAM [WORD..]

   Writes one line: the exit status (128 more than the number of a signal that ended it), nanoseconds on the clock,
   microseconds of the processor (user and system), and the greatest memory in KiB. The kernel counts the memory of the
   process that starts a program as the program's own, so this one is small. */
#include <stdio.h>
#include <stdlib.h>
#include <sys/resource.h>
#include <sys/wait.h>
#include <time.h>
#include <unistd.h>

static long long now(void) {
  struct timespec at;
  clock_gettime(CLOCK_MONOTONIC, &at);
  return at.tv_sec * 1000000000LL + at.tv_nsec;
}

static long long microseconds(struct timeval time) { return time.tv_sec * 1000000LL + time.tv_usec; }

int main(int count, char **words) {
  if (count < 3)
    return 2;
  int out = atoi(words[1]), status = 0;
  struct rusage usage;
  long long start = now();
  pid_t child = fork();
  if (child == 0) {
    close(out);
    execvp(words[2], words + 2);
    _exit(127);
  }
  if (child < 0 || wait4(child, &status, 0, &usage) < 0)
    return 1;
  long long taken = now() - start;
  int ended = WIFEXITED(status) ? WEXITSTATUS(status) : 128 + WTERMSIG(status);
  dprintf(out, "%d %lld %lld %ld\n", ended, taken, microseconds(usage.ru_utime) + microseconds(usage.ru_stime),
          usage.ru_maxrss);
  return 0;
}
