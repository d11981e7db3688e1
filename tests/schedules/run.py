#!/usr/bin/env python3
"""Tries many schedules of each test of threads.

    tests/schedules/run.py [--only WORD] [--programs FOLDER] [--seconds N] [--seed N]
    tests/schedules/run.py --repeat CRATE TEST SEARCH WHICH    repeats one schedule, and prints its steps

A preloaded library (sched.c) runs the threads of a test program one at a time, and chooses at each locked instruction, futex
call, yield, sleep and reading of the clock which thread goes on. Time is virtual. Each test is tried by all schedules that
differ from round robin in one choice (at most EACH_SECONDS), and by random walks and by random priorities for N seconds each
(0.5). A schedule fails if it ends in a deadlock, a lost wake-up, a livelock, a signal or a status other than 0, or if threads
are asleep after the end of `main`. It is printed with the command that repeats it. A test fails also if no schedule was run.
The last line is `N passed, M failed`.

A step is taken as a whole and in the order of the schedule: what a processor and a compiler may reorder is not tried.

It needs gcc, objdump, python3 and the test programs, built: FOLDER/CRATE/out/CRATE_tests, where FOLDER is crates/ if none is
given. It runs on x86-64 alone, and elsewhere says that it is skipped.
"""
import argparse
import concurrent.futures
import dataclasses
import os
import pathlib
import platform
import re
import shlex
import subprocess
import sys
import tempfile

# Nothing is left beside the scripts.
sys.dont_write_bytecode = True

HERE = pathlib.Path(__file__).resolve().parent
CRATES = ["acceptance_schedules", "acceptance_threads", "acceptance_folders", "acceptance_log"]
# Tests of this crate hold however slow threads are: time may pass also while a thread can go on.
OF_SLOW_THREADS = "acceptance_schedules"
# These write hundreds or thousands of lines, so that one schedule has tens of thousands of steps, or have more threads than
# the scheduler has place for. Small tests of that crate have the same threads, with two lines each.
TOO_LONG = {
    "acceptance_threads": [
        "closing::a_guard_that_waits_leaves_no_sender_asleep",
        "closing::a_guard_without_a_place_leaves_no_sender_asleep",
        "closing::a_flush_waits_for_no_later_line",
        "stories::a_queue_has_128000_places_by_default",
        "stories::crowds_of_clones_get_through",
        "stories::crowds_of_counted_senders_get_through",
        "stories::crowds_of_plain_senders_get_through",
        "stories::holds_of_several_lines",
        "work::work_of_a_hundred_threads_has_an_account",
    ],
    "acceptance_folders": [
        "crowds::no_line_of_full_files_is_lost",
        "links::three_writers_of_one_link_make_it_and_a_reader_always_finds_a_file",
    ],
    "acceptance_log": ["records::times::times_rise_in_a_long_log_of_threads", "records::two_threads_share_a_sink"],
}
# These wait until a time runs out while no other thread can go on, which is else a lost wake-up.
RUN_OUT = {"acceptance_log": ["queued::a_flush_waits_for_the_records_before"]}
SEARCHES = ["each", "random", "pct"]
EACH_SECONDS = 5
# No search takes as long on a slow machine; one that does hangs.
LIMIT_SECONDS = 120
# A line of a disassembly that begins a function, or an instruction that locks a word of memory: its address, its bytes and its
# text. One whose operand is found from its own address can't be copied.
LOCKED = re.compile(r"^[0-9a-f]+ <(.*)>:$|^ *([0-9a-f]+):\t((?:[0-9a-f]{2} )+) *\t((?:lock |xchg .*\()(?!.*%rip).*)$", re.M)
UNCOPIED = re.compile(r"\t(?:lock |xchg .*\().*%rip", re.M)
FAULT = re.compile(r"^fault: (.*) \| schedules (\d+) \| (?:seed|choices) ?(.*)$", re.M)
SUMMARY = re.compile(r"^schedules (\d+) \| choices (\d+) \| longest (\d+) steps \| (complete|stopped)$", re.M)


@dataclasses.dataclass
class Program:
    """A test program, and the file of its locked instructions."""

    crate: str
    path: pathlib.Path
    locked: pathlib.Path

    def tests(self):
        text = subprocess.run([self.path, "--list"], capture_output=True, text=True, check=True).stdout
        left_out = TOO_LONG.get(self.crate, []) + RUN_OUT.get(self.crate, [])
        return [it for it in re.findall(r"^(\S+): test$", text, re.M) if it not in left_out]


@dataclasses.dataclass
class Tried:
    """What a search came to: the number of schedules, of the last one's choices, and the fault, if there is one."""

    schedules: int
    choices: int = 0
    is_complete: bool = True
    fault: str = ""
    # The seed or the choices of that schedule.
    which: str = ""


def program_at(crate, path, folder):
    """The program at a path, whose locked instructions are listed in a file of the folder."""
    command = ["objdump", "-d", "--insn-width=16", path]
    text = subprocess.run(command, capture_output=True, text=True, check=True).stdout
    rows, function = [], ""
    for name, address, code, instruction in LOCKED.findall(text):
        # Without the types of a generic function.
        function = name.split("::<")[0] or function
        if address:
            rows.append(f"{address} {len(code.split())} {instruction.strip()} in {function}"[:200] + "\n")
    if not rows:
        raise SystemExit(f"{path}: no locked instruction")
    # An address sanitizer has some.
    if UNCOPIED.search(text) and "<__asan_init>:" not in text:
        raise SystemExit(f"{path}: a locked instruction that can't be copied")
    locked = pathlib.Path(folder, f"{crate}.locked")
    locked.write_text("".join(rows))
    return Program(crate, path, locked)


def build_library(folder):
    library = pathlib.Path(folder, "libsched.so")
    # The library's own calls of its functions are not those of a program that has functions of these names.
    flags = ["-O2", "-fPIC", "-shared", "-Wl,-Bsymbolic-functions"]
    subprocess.run(["gcc", *flags, "-o", library, HERE / "sched.c", HERE / "patch.c", "-ldl"], check=True)
    return library


def run_test(library, program, test, folder, **settings):
    """Runs a test under the scheduler, in a folder that is removed later."""
    env = {"LD_PRELOAD": str(library), "SCHED_LOCKED": str(program.locked), "TMPDIR": str(folder), "PATH": os.defpath}
    # Programs of `rt try` keep their locals on the stack, of which each fiber has its own.
    env["ASAN_OPTIONS"] = "detect_stack_use_after_return=0:detect_leaks=0"
    env["SCHED_SLOW"] = str(int(program.crate == OF_SLOW_THREADS))
    env.update({f"SCHED_{name}".rstrip("_"): str(value) for name, value in settings.items()})
    how = {"capture_output": True, "text": True, "errors": "replace", "timeout": LIMIT_SECONDS}
    return subprocess.run([program.path, test], env=env, cwd=folder, **how)


def search(library, program, test, folder, name, seconds, seed):
    """Tries schedules of a test by one search."""
    try:
        done = run_test(library, program, test, folder, _=name, SECONDS=seconds, SEED=seed)
    except subprocess.TimeoutExpired:
        return Tried(0, fault=f"no end after {LIMIT_SECONDS} seconds")
    fault, summary = FAULT.search(done.stdout), SUMMARY.search(done.stdout)
    if not summary or (done.returncode != 0) != bool(fault):
        return Tried(0, fault=f"the scheduler ended with status {done.returncode}: {done.stdout}{done.stderr}")
    tried = Tried(int(summary[1]), int(summary[2]), summary[4] == "complete")
    if fault:
        tried.fault, tried.which = fault[1], fault[3]
    elif not tried.schedules:
        tried.fault = "no schedule was run"
    return tried


def check_searches(library, folder):
    """Ends the script if a search doesn't find the faults of a program that has some."""
    path = pathlib.Path(folder, "known")
    subprocess.run(["gcc", "-O2", "-o", path, HERE / "known.c", "-lpthread"], check=True)
    program = program_at("known", path, folder)
    for fault, wanted in (("update", "another status 1"), ("wake-up", "deadlock")):
        for name in SEARCHES:
            tried = search(library, program, fault, folder, name, EACH_SECONDS, 1)
            if not tried.fault.startswith(wanted):
                raise SystemExit(f"known.c: {name} finds no {fault}: {tried}")


def try_test(library, program, test, folder, seconds, seed):
    """Tries a test by each search, until one finds a fault or the test proves to have no choice."""
    found = {}
    for name in SEARCHES:
        limit = EACH_SECONDS if name == "each" else seconds
        found[name] = tried = search(library, program, test, folder, name, limit, seed)
        if tried.fault or not tried.choices and name == "each":
            break
    return found


def report(program, test, found):
    """Prints what the searches of a test came to. Returns how many schedules they ran, and whether one found a fault."""
    schedules = sum(it.schedules for it in found.values())
    name, last = list(found.items())[-1]
    if not last.fault:
        counts = [f"{it} {tried.schedules}{'' if tried.is_complete else ' (stopped)'}" for it, tried in found.items()]
        print(f"{program.crate} {test}: {', '.join(counts)} schedules")
        return schedules, False
    print(f"{program.crate} {test}: {last.fault}\n  found by {name} after {last.schedules} schedules; its steps are printed by")
    words = ["tests/schedules/run.py", "--repeat", program.crate, test, name, last.which]
    print("  " + shlex.join(words), flush=True)
    return schedules, True


def try_all(words, folder):
    """Tries all tests, and returns how many failed."""
    library = build_library(folder)
    check_searches(library, folder)
    passed = failed = schedules = alone = 0
    with concurrent.futures.ThreadPoolExecutor(os.cpu_count()) as pool:
        waiting = []
        for crate in CRATES:
            path = words.programs / crate / "out" / f"{crate}_tests"
            if words.only and not path.exists():
                print(f"{crate} isn't built")
                continue
            program = program_at(crate, path, folder)
            for test in program.tests():
                if words.only in f"{crate} {test}":
                    done = pool.submit(try_test, library, program, test, folder, words.seconds, words.seed)
                    waiting.append((program, test, done))
        for program, test, done in waiting:
            found = done.result()
            if not any(it.choices or it.fault for it in found.values()):
                alone += 1
                continue
            count, is_bad = report(program, test, found)
            schedules, failed, passed = schedules + count, failed + is_bad, passed + (not is_bad)
    long, run_out = (sum(map(len, tests.values())) for tests in (TOO_LONG, RUN_OUT))
    print(f"{schedules} schedules; left out: {alone} tests of one thread, {long} that are too long, {run_out} whose time runs out")
    print(f"{passed} passed, {failed} failed")
    if not passed + failed:
        raise SystemExit("no test of threads was run")
    return failed


def repeat(words, folder):
    """Repeats one schedule, and prints each step."""
    crate, test, name, which = words.repeat
    program = program_at(crate, words.programs / crate / "out" / f"{crate}_tests", folder)
    how = {"_": name, "SEED": which, "RUNS": 1} if name != "each" else {"_": "replay", "CHOICES": which}
    done = run_test(build_library(folder), program, test, folder, TRACE=1, **how)
    print(done.stderr + done.stdout, end="")
    return done.returncode


def main():
    words = argparse.ArgumentParser()
    words.add_argument("--only", default="", help="the tests with this word in 'CRATE TEST'")
    words.add_argument("--programs", type=pathlib.Path, default=HERE.parent.parent / "crates")
    words.add_argument("--seconds", type=float, default=0.5)
    words.add_argument("--seed", type=int, default=1)
    words.add_argument("--repeat", nargs=4, metavar=("CRATE", "TEST", "SEARCH", "WHICH"))
    words = words.parse_args()
    words.programs = words.programs.resolve()
    if platform.machine() != "x86_64":
        print("tests/schedules is skipped: the machine is no x86-64\n0 passed, 0 failed")
        return 0
    with tempfile.TemporaryDirectory(prefix="schedules-") as folder:
        return repeat(words, folder) if words.repeat else try_all(words, folder) > 0


if __name__ == "__main__":
    sys.exit(main())
