// A program with two faults that show in some schedules only. Each search has to find both before its results count.
//
//   update    two threads add 1 in two steps, so that one addition may be lost; the status is then 1
//   wake-up   a thread looks at a flag and then sleeps, and may do so after the only wake-up
#include <linux/futex.h>
#include <pthread.h>
#include <stdatomic.h>
#include <stdlib.h>
#include <string.h>
#include <sys/syscall.h>
#include <unistd.h>

struct shared { atomic_uint sum, flag, word; };

// By a locked instruction.
static unsigned read_locked(atomic_uint *from) {
  unsigned seen = 0;
  atomic_compare_exchange_strong(from, &seen, 0);
  return seen;
}

static void *add(void *argument) {
  struct shared *shared = argument;
  atomic_store(&shared->sum, read_locked(&shared->sum) + 1);
  return NULL;
}

static void *wait_for_flag(void *argument) {
  struct shared *shared = argument;
  if (!read_locked(&shared->flag)) syscall(SYS_futex, &shared->word, FUTEX_WAIT, 0, NULL);
  return NULL;
}

static void *set_flag(void *argument) {
  struct shared *shared = argument;
  atomic_store(&shared->flag, 1);
  syscall(SYS_futex, &shared->word, FUTEX_WAKE, 1);
  return NULL;
}

int main(int count, char **words) {
  int is_update = count > 1 && !strcmp(words[1], "update");
  struct shared *shared = calloc(1, sizeof *shared);
  pthread_t one, other;
  pthread_create(&one, NULL, is_update ? add : wait_for_flag, shared);
  pthread_create(&other, NULL, is_update ? add : set_flag, shared);
  pthread_join(one, NULL);
  pthread_join(other, NULL);
  return is_update && atomic_load(&shared->sum) != 2;
}
