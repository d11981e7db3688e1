// A preloaded library that runs the threads of a program one at a time, and chooses at each place which one goes on.
//
// A place is where threads can meet: before and after each locked instruction, at each call for a futex, a yield, a
// sleep, a reading of the clock, and at the end of a thread or the wait for it. What is between two places is one step.
// The library runs `main` many times, each time by another schedule, and puts the memory back before each run.
//
//   SCHED=each      all schedules that differ from round robin in at most one choice
//   SCHED=random    random walks: at each place another thread goes on with a probability that is drawn for each run
//   SCHED=pct       random priorities of threads, which change at CHANGES random places
//   SCHED=replay    one schedule, given by SCHED_CHOICES: words PLACE:CHOICE, where each other choice is 0
//   SCHED_LOCKED    a file with the locked instructions, a line 'ADDRESS LENGTH NAME' for each, in their order
//   SCHED_SEED      the seed of the first run (1), which each further run raises by 1
//   SCHED_RUNS      the most runs (1000000)
//   SCHED_SECONDS   how long to try (0.5); at least one run is made
//   SCHED_SLOW=1    threads may be slow: time passes also while others can go on
//   SCHED_TRACE=1   writes each step to standard error, and lets the program write
//
// It prints one line, and a line before it if a schedule ends otherwise than by status 0. Then the status is 1.
//
// The search `pct` is that of Burckhardt, Kothari, Musuvathi and Nagarakatte, 'A randomized scheduler with
// probabilistic guarantees of finding bugs' (2010). The bound of `each` is like that of Musuvathi and Qadeer, 'Iterative
// context bounding for systematic testing of multithreaded programs' (2007), who found that most bugs need few
// preemptions: it counts each choice that is not that of round robin.
#define _GNU_SOURCE
#include <dlfcn.h>
#include <errno.h>
#include <link.h>
#include <linux/futex.h>
#include <pthread.h>
#include <signal.h>
#include <stdarg.h>
#include <stdint.h>
#include <stdio.h>
#include <stdlib.h>
#include <string.h>
#include <sys/mman.h>
#include <sys/syscall.h>
#include <time.h>
#include <unistd.h>

#include "sched.h"

#define MOST_THREADS 24
#define MOST_STEPS 50000
#define MOST_CHOICES 100000
// Most bugs of this kind need fewer.
#define CHANGES 3
// After so many yields of one thread in a row, another one goes on.
#define MOST_YIELDS 200
#define STACK_BYTES (1u << 20)
#define HEAP_BYTES (256u << 20)
#define NEVER INT64_MAX

enum state { READY, ASLEEP, NAPPING, JOINING, ENDED };

struct thread {
  void *stack_pointer;
  enum state state;
  int error;            // errno, while another thread runs
  const void *word;     // of ASLEEP: the futex
  int64_t wakes_at;     // of ASLEEP and NAPPING: when the wait runs out
  int ran_out;          // whether it did
  int joined;           // of JOINING: the thread that it waits for
  int is_free;          // of ENDED: whether another thread may have its place
  int priority;         // of the search `pct`
  void *(*start)(void *);
  void *argument, *result;
  char name[16];
};

enum ending { GOES_ON, WELL, STATUS, FAILED, DEADLOCK, STILL_ASLEEP, LOST_WAKE_UP, LIVELOCK, SIGNAL, NO_CHOICE, NO_PLACE };

static const char *const endings[] = {
    "no end", "well", "another status", "failed test", "deadlock", "asleep after the end of main",
    "lost wake-up: a timed wait ran out while no thread could go on", "livelock", "signal", "no such choice",
    "more than the scheduler has place for"};

enum search { EACH, RANDOM, PCT, REPLAY };

static enum search search;
static int is_slow, is_traced;

// The run: `is_running` while a thread of the program runs, and not the driver.
int is_running;
static int is_main_ended, steps, status, time_passed_early;
static enum ending ending;
static int64_t now;
static struct thread threads[MOST_THREADS];
static int thread_count, current;
static char message[512];

static long system_call(long number, long a, long b, long c, long d, long e, long f) {
  register long r10 __asm__("r10") = d;
  register long r8 __asm__("r8") = e;
  register long r9 __asm__("r9") = f;
  long result;
  __asm__ volatile("syscall" : "=a"(result) : "a"(number), "D"(a), "S"(b), "d"(c), "r"(r10), "r"(r8), "r"(r9)
                   : "rcx", "r11", "memory");
  return result;
}

// That of the C library, for calls that the driver makes.
static long answer(long result) {
  if (result >= 0 || result <= -4096) return result;
  errno = (int)-result;
  return -1;
}

void trace(const char *format, ...) {
  if (!is_traced) return;
  va_list words;
  va_start(words, format);
  dprintf(2, "%6d  %-15s ", steps, threads[current].name);
  vdprintf(2, format, words);
  dprintf(2, "\n");
  va_end(words);
}

// ---- Fibers ----
// Each thread of the program is a fiber of one thread of the system: a stack, and the registers that a call keeps.

void switch_stacks(void **from, void *to);
__asm__(".text\n.globl switch_stacks\n.hidden switch_stacks\nswitch_stacks:\n"
        "push %rbp\npush %rbx\npush %r12\npush %r13\npush %r14\npush %r15\n"
        "mov %rsp,(%rdi)\nmov %rsi,%rsp\n"
        "pop %r15\npop %r14\npop %r13\npop %r12\npop %rbx\npop %rbp\nret\n");

static char *stacks;
static void *driver_stack, *lost_stack;

// Leaves the run for the driver.
static void end_run(enum ending how) {
  ending = how;
  is_running = 0;
  switch_stacks(&lost_stack, driver_stack);
  __builtin_unreachable();
}

static void thread_main(void) {
  struct thread *it = &threads[current];
  errno = 0;
  it->result = it->start(it->argument);
  it->state = ENDED;
  trace("ends");
  for (int i = 0; i < thread_count; i++)
    if (threads[i].state == JOINING && threads[i].joined == current) threads[i].state = READY;
  place(0);
  __builtin_unreachable();
}

// Begins a thread at this place of the table.
static void begin_thread(int id, void *(*start)(void *), void *argument, int priority) {
  struct thread *it = &threads[id];
  void **top = (void **)(stacks + (size_t)(id + 1) * STACK_BYTES - 64);
  *--top = 0;
  *--top = (void *)thread_main;
  for (int i = 0; i < 6; i++) *--top = 0;
  *it = (struct thread){
      .stack_pointer = top, .state = READY, .start = start, .argument = argument, .priority = priority};
  snprintf(it->name, sizeof it->name, id ? "thread %d" : "main", id);
}

// Writes what each thread does that has not ended.
static void describe_threads(void) {
  static const char *const doing[] = {"is ready", "sleeps", "naps", "waits for an end"};
  size_t used = 0;
  for (int i = 0; i < thread_count && used < sizeof message - 64; i++)
    if (threads[i].state != ENDED)
      used += (size_t)snprintf(message + used, sizeof message - used, "%s%s %s", used ? ", " : "", threads[i].name,
                               doing[threads[i].state]);
}

static void go_on_with(int id) {
  if (id == current) return;
  int from = current;
  threads[from].error = errno;
  current = id;
  switch_stacks(&threads[from].stack_pointer, threads[id].stack_pointer);
  errno = threads[current].error;
}

// ---- Memory put back ----
// The program's data are as before `main` when a run begins. Each request for memory has new bytes, which the next run
// forgets. Programs of `rt try` have a `memcpy` that looks at shadow memory, so it isn't used here.

void copy(void *to, const void *from, size_t count) {
  __asm__ volatile("rep movsb" : "+D"(to), "+S"(from), "+c"(count) : : "memory");
}

static void fill(void *at, int byte, size_t count) {
  __asm__ volatile("rep stosb" : "+D"(at), "+c"(count) : "a"(byte) : "memory");
}

static struct { char *at, *kept; size_t bytes; } segments[8];
static int segment_count;
static char *heap, *heap_end;

extern void *__libc_malloc(size_t), *__libc_calloc(size_t, size_t), *__libc_realloc(void *, size_t);
extern void __libc_free(void *);

static int keep_segments(struct dl_phdr_info *program, size_t size, void *unused) {
  (void)size, (void)unused;
  uintptr_t constant = 0; // The loader has made what is below it read-only.
  for (int i = 0; i < program->dlpi_phnum; i++) {
    const ElfW(Phdr) *it = &program->dlpi_phdr[i];
    if (it->p_type == PT_GNU_RELRO) constant = (program->dlpi_addr + it->p_vaddr + it->p_memsz) & ~4095ul;
  }
  for (int i = 0; i < program->dlpi_phnum && segment_count < 8; i++) {
    const ElfW(Phdr) *it = &program->dlpi_phdr[i];
    uintptr_t at = program->dlpi_addr + it->p_vaddr, end = at + it->p_memsz;
    if (at < constant) at = constant;
    if (it->p_type != PT_LOAD || !(it->p_flags & PF_W) || at >= end) continue;
    segments[segment_count].at = (char *)at;
    segments[segment_count].bytes = end - at;
    segments[segment_count].kept = __libc_malloc(end - at);
    copy(segments[segment_count++].kept, (char *)at, end - at);
  }
  return 1; // The program is the first, and libraries keep their data.
}

static void put_memory_back(void) {
  for (int i = 0; i < segment_count; i++) copy(segments[i].at, segments[i].kept, segments[i].bytes);
  heap_end = heap;
  // A run that was left inside calls has shadows of their locals on the stacks.
  if (has_shadow) fill((void *)(0x7fff8000 + ((uintptr_t)stacks >> 3)), 0, (size_t)thread_count * STACK_BYTES >> 3);
}

static void *allocate(size_t size, size_t align) {
  char *it = heap_end + sizeof(size_t);
  it += -(uintptr_t)it & (align - 1);
  if (size > (size_t)(heap + HEAP_BYTES - it)) return 0;
  ((size_t *)it)[-1] = size;
  heap_end = it + size;
  return it;
}

static int is_ours(void *it) { return heap && (char *)it >= heap && (char *)it < heap + HEAP_BYTES; }

void *malloc(size_t size) { return is_running ? allocate(size, 16) : __libc_malloc(size); }

void free(void *it) {
  if (!is_ours(it)) __libc_free(it);
  else if (is_running) fill(it, 0xdd, ((size_t *)it)[-1]); // So that a later use shows.
}

void *calloc(size_t number, size_t size) {
  if (!is_running) return __libc_calloc(number, size);
  void *it = size && number > HEAP_BYTES / size ? 0 : allocate(number * size, 16);
  if (it) fill(it, 0, number * size);
  return it;
}

void *realloc(void *old, size_t size) {
  if (!is_running || (old && !is_ours(old))) return __libc_realloc(old, size);
  void *it = allocate(size, 16);
  if (!it || !old) return it;
  size_t before = ((size_t *)old)[-1];
  copy(it, old, before < size ? before : size);
  free(old);
  return it;
}

void *memalign(size_t align, size_t size) { return allocate(size, align < 16 ? 16 : align); }

void *aligned_alloc(size_t align, size_t size) { return memalign(align, size); }

int posix_memalign(void **made, size_t align, size_t size) {
  *made = memalign(align, size);
  return *made ? 0 : ENOMEM;
}

// ---- Choices ----
// What a schedule chose at each place with several options. Option 0 is that of round robin.

static struct { uint8_t options, chosen; } choices[MOST_CHOICES];
static int choice_count;
// What `each` and `replay` choose.
static uint8_t plan[MOST_CHOICES];

static int choose(int options, int proposed) {
  if (options == 1) return 0;
  if (choice_count == MOST_CHOICES) end_run(LIVELOCK);
  int chosen = search == EACH || search == REPLAY ? plan[choice_count] : proposed;
  if (chosen >= options) end_run(NO_CHOICE);
  choices[choice_count].options = (uint8_t)options;
  choices[choice_count++].chosen = (uint8_t)chosen;
  return chosen;
}

// The random numbers are those of SplitMix64.
static uint64_t random_state;

static uint64_t next_random(void) {
  uint64_t it = random_state += 0x9e3779b97f4a7c15u;
  it = (it ^ it >> 30) * 0xbf58476d1ce4e5b9u;
  it = (it ^ it >> 27) * 0x94d049bb133111ebu;
  return it ^ it >> 31;
}

static int below(int bound) { return (int)(next_random() % (uint64_t)bound); }

static int happens(double probability) { return (double)(next_random() >> 11) * 0x1p-53 < probability; }

// ---- Searches ----

// Drawn for each run: how often another thread goes on, whether a yield is a place like any other, and how often time
// passes while threads can go on.
static double switches_with, passes_with;
static int ignores_yields, yields_in_a_row;
// Of `pct`: the steps at which priorities change, and the lowest one so far. Priorities of new threads are above 0.
static int changes_at[CHANGES], lowest_priority, usual_steps = 200;

static void draw(uint64_t seed) {
  static const double switches[] = {0.9, 0.5, 0.25, 0.1, 0.05, 0.02}, passes[] = {0, 0, 0.003, 0.02, 0.1};
  random_state = seed * 0x2545f4914f6cdd1du;
  switches_with = switches[below(6)];
  passes_with = passes[below(5)];
  ignores_yields = search != EACH && search != REPLAY && below(2);
  for (int i = 0; i < CHANGES; i++) changes_at[i] = 1 + below(usual_steps);
  lowest_priority = 0;
}

static int new_priority(void) { return 1 + below(1 << 20); }

// A random walk among `count` threads. The first is the current one, unless that `yields`, where it is the last, or
// waits.
static int walk(int count, int yields) {
  int can_stay = threads[current].state == READY;
  if (!can_stay || (yields && !ignores_yields)) return below(count);
  int stays = yields ? count - 1 : 0, others = yields ? 0 : 1;
  return count > 1 && happens(switches_with) ? others + below(count - 1) : stays;
}

// The thread with the highest priority. That of the current one changes at some places, and where it yields.
static int by_priority(const int *ids, int count, int yields) {
  for (int i = 0; i < CHANGES; i++)
    if (changes_at[i] == steps) threads[current].priority = --lowest_priority;
  if (yields && !ignores_yields) threads[current].priority = --lowest_priority;
  int best = 0;
  for (int i = 1; i < count; i++)
    if (threads[ids[i]].priority > threads[ids[best]].priority) best = i;
  return best;
}

static int propose(const int *ids, int count, int yields) {
  if (search == PCT) return by_priority(ids, count, yields);
  return search == RANDOM ? walk(count, yields) : 0;
}

// ---- Virtual time ----
// Time passes when no thread can go on: then the wait that ends first runs out. Where threads may be slow, it also
// passes while others can.

static int64_t after(const struct timespec *time) {
  if (!time || time->tv_sec > 1000000000) return NEVER;
  return now + time->tv_sec * 1000000000ll + time->tv_nsec;
}

// The thread whose timed wait runs out first, or -1.
static int first_due(void) {
  int first = -1;
  for (int i = 0; i < thread_count; i++)
    if ((threads[i].state == ASLEEP || threads[i].state == NAPPING) && threads[i].wakes_at != NEVER)
      if (first < 0 || threads[i].wakes_at < threads[first].wakes_at) first = i;
  return first;
}

static void let_time_pass(int due, int is_early) {
  struct thread *it = &threads[due];
  if (is_early) time_passed_early = 1;
  int naps = 0;
  for (int i = 0; i < thread_count; i++) naps |= threads[i].state == NAPPING;
  // No thread but the sleeping ones could have woken it.
  if (!time_passed_early && !naps) {
    describe_threads();
    end_run(LOST_WAKE_UP);
  }
  if (it->wakes_at > now) now = it->wakes_at;
  it->state = READY;
  it->ran_out = 1;
  if (is_traced) dprintf(2, "        (the wait of %s runs out)\n", it->name);
}

// ---- Places ----

// The threads that can go on, in the order of round robin. The current one is the first, or the last if it yields.
static int ready_threads(int *ids, int yields) {
  int count = 0;
  for (int i = yields; i < thread_count + yields; i++) {
    int id = (current + i) % thread_count;
    if (threads[id].state == READY) ids[count++] = id;
  }
  return count;
}

// No thread can go on, and no time has an effect.
static void end_blocked(void) {
  describe_threads();
  if (!*message) end_run(WELL);
  end_run(is_main_ended ? STILL_ASLEEP : DEADLOCK);
}

void place(int yields) {
  if (++steps > MOST_STEPS) {
    describe_threads();
    end_run(LIVELOCK);
  }
  int ids[MOST_THREADS + 1], count = ready_threads(ids, yields), due = first_due();
  if (!count && due < 0) end_blocked();
  int proposed = count ? propose(ids, count, yields) : 0, options = count;
  if (due >= 0 && (!count || is_slow)) {
    if (count && happens(passes_with)) proposed = count;
    ids[options++] = due;
  }
  int chosen = choose(options, proposed), next = ids[chosen];
  if (chosen == count) let_time_pass(due, count);
  if (next != current) yields_in_a_row = 0;
  go_on_with(next);
}

// ---- Calls for time ----

int nanosleep(const struct timespec *time, struct timespec *left) {
  if (!is_running) return (int)answer(system_call(SYS_nanosleep, (long)time, (long)left, 0, 0, 0, 0));
  threads[current].state = NAPPING;
  threads[current].wakes_at = after(time);
  trace("naps");
  place(0);
  return 0;
}

int clock_gettime(clockid_t clock, struct timespec *time) {
  if (!is_running) return (int)answer(system_call(SYS_clock_gettime, clock, (long)time, 0, 0, 0, 0));
  place(0);
  // The longest waits of a guard are 100 and 1,000 milliseconds.
  static const int64_t passes[] = {0, 101000000, 1001000000};
  int chosen = is_slow ? choose(3, happens(passes_with) ? 1 + below(2) : 0) : 0;
  if (chosen) time_passed_early = 1;
  now += passes[chosen];
  int64_t all = now + (clock == CLOCK_REALTIME ? 1580551260 : 1000) * 1000000000ll;
  time->tv_sec = all / 1000000000;
  time->tv_nsec = all % 1000000000;
  trace("reads the clock: %ld ms", (long)(now / 1000000));
  return 0;
}

int sched_yield(void) {
  if (!is_running) return (int)answer(system_call(SYS_sched_yield, 0, 0, 0, 0, 0, 0));
  int ignored = ignores_yields;
  if (++yields_in_a_row > MOST_YIELDS) ignores_yields = 0;
  trace("yields");
  place(1);
  ignores_yields = ignored;
  return 0;
}

// ---- Futexes ----

static long sleep_on(const unsigned *word, unsigned value, const struct timespec *time) {
  struct thread *it = &threads[current];
  place(0);
  if (*(const volatile unsigned *)word != value) {
    trace("does not sleep: the word changed");
    errno = EAGAIN;
    return -1;
  }
  it->state = ASLEEP;
  it->word = word;
  it->wakes_at = after(time);
  it->ran_out = 0;
  trace("sleeps at %p%s", (const void *)word, it->wakes_at == NEVER ? "" : " for some time");
  place(0);
  if (!it->ran_out) return 0;
  errno = ETIMEDOUT;
  return -1;
}

static long wake_up(const unsigned *word, int most) {
  place(0);
  int woken = 0;
  for (; woken < most; woken++) {
    int ids[MOST_THREADS], count = 0;
    for (int i = 0; i < thread_count; i++)
      if (threads[i].state == ASLEEP && threads[i].word == word) ids[count++] = i;
    if (!count) break;
    int all = count <= most - woken;
    int chosen = all ? 0 : choose(count, below(count));
    threads[ids[chosen]].state = READY;
    trace("wakes %s", threads[ids[chosen]].name);
  }
  if (!woken) trace("wakes no thread at %p", (const void *)word);
  return woken;
}

long syscall(long number, ...) {
  va_list words;
  va_start(words, number);
  long a = va_arg(words, long), b = va_arg(words, long), c = va_arg(words, long), d = va_arg(words, long);
  long e = va_arg(words, long), f = va_arg(words, long);
  va_end(words);
  if (!is_running || number != SYS_futex) return answer(system_call(number, a, b, c, d, e, f));
  int call = (int)b & FUTEX_CMD_MASK;
  if (call == FUTEX_WAIT) return sleep_on((unsigned *)a, (unsigned)c, (struct timespec *)d);
  if (call == FUTEX_WAKE) return wake_up((unsigned *)a, (int)c);
  snprintf(message, sizeof message, "futex call %d", call);
  end_run(NO_PLACE);
  return -1;
}

// ---- Threads ----

#define HANDLE(id) ((pthread_t)(0x7ead0000 + (id)))
#define REAL(name) ((__typeof__(&name))dlsym(RTLD_NEXT, #name))

int pthread_create(pthread_t *made, const pthread_attr_t *settings, void *(*start)(void *), void *argument) {
  if (!is_running) return REAL(pthread_create)(made, settings, start, argument);
  int id = 1;
  while (id < thread_count && !(threads[id].state == ENDED && threads[id].is_free)) id++;
  if (id == MOST_THREADS) end_run(NO_PLACE);
  if (id == thread_count) thread_count++;
  begin_thread(id, start, argument, new_priority());
  *made = HANDLE(id);
  trace("begins %s", threads[id].name);
  return 0;
}

int pthread_join(pthread_t handle, void **result) {
  if (!is_running) return REAL(pthread_join)(handle, result);
  int id = (int)(handle - HANDLE(0));
  place(0);
  if (threads[id].state != ENDED) {
    threads[current].state = JOINING;
    threads[current].joined = id;
    trace("waits for the end of %s", threads[id].name);
    place(0);
  }
  threads[id].is_free = 1;
  if (result) *result = threads[id].result;
  return 0;
}

int pthread_detach(pthread_t handle) {
  if (!is_running) return REAL(pthread_detach)(handle);
  threads[handle - HANDLE(0)].is_free = 1;
  return 0;
}

pthread_t pthread_self(void) { return is_running ? HANDLE(current) : REAL(pthread_self)(); }

int pthread_setname_np(pthread_t handle, const char *name) {
  if (!is_running) return REAL(pthread_setname_np)(handle, name);
  snprintf(threads[handle - HANDLE(0)].name, sizeof threads[0].name, "%s", name);
  // The program reads it from the system.
  system_call(SYS_prctl, 15, (long)name, 0, 0, 0, 0);
  return 0;
}

// The end of `main`: the other threads go on to theirs, unless a test has failed.
void _exit(int with) {
  if (is_running) {
    trace("ends the program with status %d", with);
    status = with;
    if (with) end_run(STATUS);
    is_main_ended = 1;
    threads[current].state = ENDED;
    place(0);
  }
  system_call(SYS_exit_group, with, 0, 0, 0, 0, 0);
  __builtin_unreachable();
}

ssize_t write(int file, const void *bytes, size_t count) {
  if (is_running && !is_traced && (file == 1 || file == 2)) return (ssize_t)count;
  return answer(system_call(SYS_write, file, (long)bytes, (long)count, 0, 0, 0));
}

// ---- Runs ----

void end_by_signal(int number) {
  snprintf(message, sizeof message, "%d in %s", number, threads[current].name);
  end_run(number == SIGABRT ? FAILED : SIGNAL); // A test that fails aborts.
}

typedef int (*main_function)(int, char **, char **);

static main_function program_main;
static int argument_count;
static char **arguments, **environment;
static long runs;
static int longest;

static void *run_main(void *unused) {
  (void)unused;
  _exit(program_main(argument_count, arguments, environment));
}

static void run_once(uint64_t seed) {
  put_memory_back();
  steps = status = is_main_ended = time_passed_early = choice_count = yields_in_a_row = 0;
  now = 0;
  message[0] = 0;
  ending = GOES_ON;
  draw(seed);
  thread_count = 1;
  current = 0;
  begin_thread(0, run_main, 0, new_priority());
  is_running = 1;
  switch_stacks(&driver_stack, threads[0].stack_pointer);
  is_running = 0;
  runs++;
  if (steps > longest) longest = steps;
}

// ---- Reports ----

static long long setting(const char *name, long long otherwise) {
  const char *word = getenv(name);
  return word ? atoll(word) : otherwise;
}

static double seconds(void) {
  struct timespec time;
  system_call(SYS_clock_gettime, CLOCK_MONOTONIC, (long)&time, 0, 0, 0, 0);
  return (double)time.tv_sec + (double)time.tv_nsec * 1e-9;
}

// Prints how a run ended that did not end well: the seed repeats it, or for `each` the choices.
static void report(uint64_t seed) {
  printf("fault: %s", endings[ending]);
  if (ending == STATUS) printf(" %d", status);
  if (*message) printf(" (%s)", message);
  printf(" | schedules %ld | ", runs);
  if (search == RANDOM || search == PCT) printf("seed %llu", (unsigned long long)seed);
  else printf("choices");
  for (int i = 0; i < choice_count && search != RANDOM && search != PCT; i++)
    if (choices[i].chosen) printf(" %d:%d", i, choices[i].chosen);
  printf("\n");
}

// Tries each schedule with one choice other than that of round robin. Returns whether one ended badly.
static int try_each(double until, int *is_complete) {
  run_once(0);
  if (ending != WELL) return 1;
  int count = choice_count;
  uint8_t *options = __libc_malloc((size_t)count + 1);
  for (int i = 0; i < count; i++) options[i] = choices[i].options;
  for (int i = 0; i < count; i++)
    for (plan[i] = 1; plan[i] < options[i] || (plan[i] = 0); plan[i]++) {
      if (seconds() > until) return *is_complete = 0;
      run_once(0);
      if (ending != WELL) return 1;
    }
  return 0;
}

// Tries random schedules, after that of round robin, whose length says where priorities may change.
static int try_random(enum search wanted, uint64_t *seed, long most, double until) {
  int traced = is_traced;
  search = EACH;
  is_traced = 0;
  run_once(0);
  if (ending != WELL) return 1;
  search = wanted;
  is_traced = traced;
  usual_steps = steps;
  do run_once((*seed)++);
  while (ending == WELL && runs <= most && seconds() < until);
  return ending != WELL;
}

static void read_plan(const char *words) {
  int at, chosen, length;
  while (words && sscanf(words, " %d:%d%n", &at, &chosen, &length) == 2) {
    if (at >= 0 && at < MOST_CHOICES) plan[at] = (uint8_t)chosen;
    words += length;
  }
}

static int drive(void) {
  const char *word = getenv("SCHED");
  search = !strcmp(word, "each") ? EACH : !strcmp(word, "random") ? RANDOM : !strcmp(word, "pct") ? PCT : REPLAY;
  const char *time = getenv("SCHED_SECONDS");
  uint64_t seed = (uint64_t)setting("SCHED_SEED", 1);
  long most = (long)setting("SCHED_RUNS", 1000000);
  double until = seconds() + (time ? atof(time) : 0.5);
  int is_bad, is_complete = 1;
  is_slow = setting("SCHED_SLOW", 0) != 0;
  is_traced = setting("SCHED_TRACE", 0) != 0;
  if (search == REPLAY) {
    read_plan(getenv("SCHED_CHOICES"));
    run_once(0);
    is_bad = ending != WELL;
  } else if (search == EACH) {
    is_bad = try_each(until, &is_complete);
  } else {
    is_bad = try_random(search, &seed, most, until);
  }
  if (is_bad) report(seed - 1);
  printf("schedules %ld | choices %d | longest %d steps | %s\n", runs, choice_count, longest,
         is_complete ? "complete" : "stopped");
  return is_bad;
}

static void *map_memory(size_t bytes) {
  return mmap(0, bytes, PROT_READ | PROT_WRITE, MAP_PRIVATE | MAP_ANONYMOUS | MAP_NORESERVE, -1, 0);
}

static int scheduled_main(int count, char **words, char **settings) {
  argument_count = count, arguments = words, environment = settings;
  unsetenv("LD_PRELOAD");
  stacks = map_memory((size_t)MOST_THREADS * STACK_BYTES);
  heap = map_memory(HEAP_BYTES);
  for (int i = 0; i < MOST_THREADS; i++) mprotect(stacks + (size_t)i * STACK_BYTES, 4096, PROT_NONE);
  catch_signals();
  patch_locked(getenv("SCHED_LOCKED"));
  redirect_all();
  dl_iterate_phdr(keep_segments, 0);
  exit(drive());
}

int __libc_start_main(main_function program, int count, char **words, void (*begin)(void), void (*end)(void),
                      void (*loader_end)(void), void *stack) {
  program_main = program;
  return REAL(__libc_start_main)(scheduled_main, count, words, begin, end, loader_end, stack);
}
