// Changes the code of the program that runs: its locked instructions become places.
#define _GNU_SOURCE
#include <dlfcn.h>
#include <link.h>
#include <malloc.h>
#include <pthread.h>
#include <signal.h>
#include <stdint.h>
#include <stdio.h>
#include <stdlib.h>
#include <string.h>
#include <sys/mman.h>
#include <time.h>
#include <ucontext.h>
#include <unistd.h>

#include "sched.h"

// ---- Locked instructions ----
// Each becomes a jump to a slot, which stops at a place, executes a copy of the instruction, and stops at another place
// before it jumps back. The second one is needed since a plain load has no place of its own. An instruction shorter than
// a jump becomes a breakpoint, whose handler goes on at the slot.

#define SLOT_BYTES 80
#define MOST_LOCKED 16384

static struct { uint8_t *at; char *name; } locked[MOST_LOCKED];
static int locked_count;
// The slots begin with the addresses of the two functions that they call.
static uint8_t *slots;

// Called by a slot, which has left the red zone and pushed its number: keeps all registers that a call may change.
#define STOP(name, to) \
  __asm__(".text\n.globl " name "\n.hidden " name "\n" name ":\n" \
          "push %rbp\nmov %rsp,%rbp\npushfq\n" \
          "push %rax\npush %rcx\npush %rdx\npush %rsi\npush %rdi\npush %r8\npush %r9\npush %r10\npush %r11\n" \
          "sub $512,%rsp\nand $-16,%rsp\nfxsave64 (%rsp)\n" \
          "cld\nmov 16(%rbp),%rdi\ncall " to "\nfxrstor64 (%rsp)\nlea -80(%rbp),%rsp\n" \
          "pop %r11\npop %r10\npop %r9\npop %r8\npop %rdi\npop %rsi\npop %rdx\npop %rcx\npop %rax\n" \
          "popfq\npop %rbp\nret\n")

void stop_before(void), stop_after(void);
STOP("stop_before", "reach_locked");
STOP("stop_after", "leave_locked");

__attribute__((visibility("hidden"), used)) void reach_locked(long number) {
  if (!is_running) return;
  place(0);
  trace("%s", locked[number].name);
}

__attribute__((visibility("hidden"), used)) void leave_locked(long number) {
  (void)number;
  if (is_running) place(0);
}

static uint8_t *slot_of(int number) { return slots + 16 + (size_t)number * SLOT_BYTES; }

// Writes a call of the function whose address is at `pointer`, with the number of the slot.
static uint8_t *put_stop(uint8_t *to, int number, const uint8_t *pointer) {
  static const uint8_t code[] = {0x48, 0x8d, 0x64, 0x24, 0x80,                    // lea -128(%rsp),%rsp
                                 0x68, 0, 0, 0, 0,                                // push $number
                                 0xff, 0x15, 0, 0, 0, 0,                          // call *pointer(%rip)
                                 0x48, 0x8d, 0xa4, 0x24, 0x88, 0x00, 0x00, 0x00}; // lea 136(%rsp),%rsp
  int32_t distance = (int32_t)(pointer - (to + 16));
  copy(to, code, sizeof code);
  copy(to + 6, &number, 4);
  copy(to + 12, &distance, 4);
  return to + sizeof code;
}

static void put_jump(uint8_t *from, const uint8_t *to) {
  int32_t distance = (int32_t)(to - (from + 5));
  *from = 0xe9;
  copy(from + 1, &distance, 4);
}

// Makes the slot of an instruction of this length, and a jump to it or a breakpoint in its place.
static void put_slot(int number, int length) {
  uint8_t *at = locked[number].at, *slot = slot_of(number), *end = put_stop(slot, number, slots);
  copy(end, at, (size_t)length);
  end = put_stop(end + length, number, slots + 8);
  put_jump(end, at + length);
  if (length >= 5) put_jump(at, slot);
  else *at = 0xcc;
}

static void on_trap(int signal, siginfo_t *unused, void *context) {
  (void)unused;
  greg_t *registers = ((ucontext_t *)context)->uc_mcontext.gregs;
  uint8_t *at = (uint8_t *)registers[REG_RIP] - 1;
  int low = 0, high = locked_count;
  while (low < high) {
    int middle = (low + high) / 2;
    if (locked[middle].at < at) low = middle + 1;
    else high = middle;
  }
  if (low == locked_count || locked[low].at != at) {
    end_by_signal(signal);
  }
  registers[REG_RIP] = (greg_t)slot_of(low);
}

static uint8_t *program_base;

static void stop_with(const char *what) {
  perror(what);
  exit(2);
}

static int make_writable(struct dl_phdr_info *program, size_t size, void *unused) {
  (void)size, (void)unused;
  program_base = (uint8_t *)program->dlpi_addr;
  for (int i = 0; i < program->dlpi_phnum; i++) {
    const ElfW(Phdr) *it = &program->dlpi_phdr[i];
    if (it->p_type != PT_LOAD || !(it->p_flags & PF_X)) continue;
    uintptr_t at = (program->dlpi_addr + it->p_vaddr) & ~4095ul, end = program->dlpi_addr + it->p_vaddr + it->p_memsz;
    if (mprotect((void *)at, end - at, PROT_READ | PROT_WRITE | PROT_EXEC)) stop_with("mprotect");
  }
  return 1;
}

// Makes a slot for each locked instruction of a file.
void patch_locked(const char *path) {
  dl_iterate_phdr(make_writable, 0);
  size_t bytes = 16 + (size_t)MOST_LOCKED * SLOT_BYTES;
  // As near to the program as a jump reaches.
  slots = mmap(program_base - (64 << 20), bytes, PROT_READ | PROT_WRITE | PROT_EXEC, MAP_PRIVATE | MAP_ANONYMOUS, -1, 0);
  if (slots == MAP_FAILED || slots > program_base || program_base - slots > (1 << 30)) stop_with("slots");
  void (*const stops[])(void) = {stop_before, stop_after};
  copy(slots, stops, sizeof stops);
  FILE *file = fopen(path, "r");
  char line[256];
  if (!file) stop_with(path);
  while (fgets(line, sizeof line, file) && locked_count < MOST_LOCKED) {
    char *name;
    locked[locked_count].at = program_base + strtoul(line, &name, 16);
    int length = (int)strtol(name, &name, 10);
    name[strcspn(name, "\n")] = 0;
    locked[locked_count].name = strdup(name + 1);
    put_slot(locked_count++, length);
  }
  fclose(file);
}

// ---- Signals ----

static void on_signal(int number) {
  if (!is_running) {
    signal(number, SIG_DFL);
    raise(number);
  }
  end_by_signal(number);
}

void catch_signals(void) {
  static char stack[65536];
  stack_t other = {.ss_sp = stack, .ss_size = sizeof stack};
  sigaltstack(&other, 0);
  struct sigaction caught = {.sa_handler = on_signal, .sa_flags = SA_ONSTACK | SA_NODEFER};
  static const int signals[] = {SIGSEGV, SIGILL, SIGABRT, SIGBUS, SIGFPE};
  for (int i = 0; i < 5; i++) sigaction(signals[i], &caught, 0);
  struct sigaction trapped = {.sa_sigaction = on_trap, .sa_flags = SA_SIGINFO | SA_ONSTACK | SA_NODEFER};
  sigaction(SIGTRAP, &trapped, 0);
}

// ---- Programs of `rt try` ----
// They have an address sanitizer inside, with functions of these names, which come before those of a library. Each
// becomes a jump to the library's.

int has_shadow;

static void redirect(const char *name, void *to) {
  uint8_t *at = dlsym(RTLD_DEFAULT, name);
  if (at == to) return;
  has_shadow = 1;
  int32_t distance;
  copy(&distance, at + 1, 4);
  if (*at == 0xe9) at += 5 + distance;
  static const uint8_t jump[] = {0x49, 0xbb, 0, 0, 0, 0, 0, 0, 0, 0, 0x41, 0xff, 0xe3}; // mov $to,%r11; jmp *%r11
  copy(at, jump, sizeof jump);
  copy(at + 2, &to, 8);
}

#define REDIRECT(name) redirect(#name, (void *)name)

void redirect_all(void) {
  REDIRECT(malloc), REDIRECT(calloc), REDIRECT(realloc), REDIRECT(free);
  REDIRECT(memalign), REDIRECT(aligned_alloc), REDIRECT(posix_memalign);
  REDIRECT(pthread_create), REDIRECT(pthread_join), REDIRECT(pthread_detach), REDIRECT(pthread_setname_np);
  REDIRECT(clock_gettime), REDIRECT(_exit), REDIRECT(write);
}
