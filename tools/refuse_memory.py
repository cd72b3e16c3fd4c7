#!/usr/bin/env python3
"""Makes each allocation fail in turn: of each test, and of the program on each example.

    rt ci                                  builds the program and the tests of each crate
    python3 tools/refuse_memory.py         all of them, or the crates that are named

A run that meets want of memory has to end with the fault that says so, or as it ends with ample memory, where what
failed was only to grow a buffer in place. It must not crash, hang, or give another answer. This needs a C compiler, cc.
"""
import os
import re
import subprocess
import sys
import tempfile
from concurrent.futures import ThreadPoolExecutor

HERE = os.path.dirname(os.path.dirname(os.path.realpath(__file__)))
# What a test says that ends for want of memory, or that compares an answer with it.
# As an SDO abort code it is 05040005h, which is 84148229 or the bytes 5, 0, 4, 5.
MEMORY = re.compile(rb"([Ee]rror|left): .*(Memory|Alloc|out of memory|84148229|5, 0, 4, 5\])")
# Tests of an SDO service that ask for its answers with ample memory, so that the abort which says want of memory is a
# wrong answer to them. What happens without, the tests named memory_refused_to.. of the same crate say.
AMPLE = re.compile(r"each_first_byte|sdo::downloads|sdo::uploads")
# The allocations of a process that fail in turn; above as many, these many spread over all.
MOST = 20000

SHIM = r"""
#include <errno.h>
#include <stdio.h>
#include <stdlib.h>
extern void *__libc_malloc(size_t);
extern void *__libc_realloc(void *, size_t);
static long calls, refused;
static int refuses(void) {
    if (!refused) {
        const char *number = getenv("REFUSED");
        refused = number ? atol(number) : -1;
    }
    if (++calls != refused) return 0;
    errno = ENOMEM;
    return 1;
}
void *malloc(size_t size) { return refuses() ? 0 : __libc_malloc(size); }
void *realloc(void *at, size_t size) { return refuses() ? 0 : __libc_realloc(at, size); }
__attribute__((destructor)) static void tell(void) {
    if (getenv("TELLS")) dprintf(2, "allocations %ld\n", calls);
}
"""


def run(shim, words, **more):
    env = {**os.environ, "LD_PRELOAD": shim, **more}
    return subprocess.run(words, env=env, capture_output=True, timeout=600)


def turns(count):
    """The numbers of the allocations that fail, one in each run."""
    return range(1, count + 1, -(-count // MOST) or 1)


def count_of(shim, words):
    """How many allocations a run with ample memory makes, and that run."""
    told = run(shim, words, TELLS="1")
    return int(told.stderr.rsplit(b"allocations ", 1)[1]), told


def faults_of_test(shim, tests, name, pool):
    """How often a test takes memory, and after which allocations' failing it ends as it should not, with what it says."""
    count, ample = count_of(shim, [tests, name])
    if ample.returncode != 0:
        return count, [(0, ample.stderr.decode())]
    runs = {n: pool.submit(run, shim, [tests, name], REFUSED=str(n)) for n in turns(count)}
    ends = {n: it.result() for n, it in runs.items()}
    wrong = {n: it for n, it in ends.items() if it.returncode and not MEMORY.search(it.stderr)}
    return count, [(n, (it.stdout + it.stderr).decode()) for n, it in wrong.items()]


def call(shim, words, **more):
    """A call of the program with a folder of its own, and the files that it leaves there."""
    with tempfile.TemporaryDirectory() as out:
        ended = run(shim, [word.replace("OUT", out) for word in words], **more)
        left = {}
        for name in os.listdir(out):
            with open(f"{out}/{name}", "rb") as file:
                left[name] = file.read()
    return ended, left


def is_refused(ended, left, ample, whole):
    """Whether a call that met want of memory says so, and leaves files that are whole; a trace may be cut."""
    says = ended.returncode == 6 and ended.stdout in (b"", ample.stdout) and ended.stderr in (b"canplan: memory\n", b"")
    stands = all(text == whole.get(name) or name == "trace.csv" and whole[name].startswith(text) for name, text in left.items())
    return says and stands


def faults_of_program(shim, words, pool):
    """The same of a call of the program."""
    told, whole = call(shim, words, TELLS="1")
    count = int(told.stderr.rsplit(b"allocations ", 1)[1])
    ample = (told.returncode, told.stdout, whole)
    runs = {n: pool.submit(call, shim, words, REFUSED=str(n)) for n in turns(count)}
    ends = {n: it.result() for n, it in runs.items()}
    wrong = {
        n: (ended, left)
        for n, (ended, left) in ends.items()
        if (ended.returncode, ended.stdout, left) != ample and not is_refused(ended, left, told, whole)
    }
    return count, [(n, f"{ended.returncode} {ended.stderr} {sorted(left)}") for n, (ended, left) in wrong.items()]


def calls_of_program():
    """The calls of the program on the examples, by a name. What is called OUT is a folder of each call's own."""
    examples = f"{HERE}/examples"
    yield "test", ["test", "--rate", "125", f"{examples}/three-frames.csv"]
    yield "usage", ["test", "--rate", "7", f"{examples}/three-frames.csv"]
    for name in "valve", "conveyor", "crane", "drives", "second-range", "sdo-refusal":
        tables = [f"{examples}/{name}/nodes.csv", f"{examples}/{name}/pdos.csv"]
        yield f"plan {name}", ["plan", *tables, "OUT"]
        yield f"check {name}", ["check", *tables, f"{examples}/{name}/refusals.csv"]
        yield f"boot {name}", ["boot", "--seed", "1", *tables]
        yield f"run {name}", ["run", "--seed", "42", "--until", "20000", *tables, "OUT/trace.csv"]
        yield f"report {name}", ["report", *tables, "OUT/report.html"]
    valve = [f"{examples}/valve/nodes.csv", f"{examples}/valve/pdos.csv"]
    yield "judge valve", ["judge", *valve, f"{examples}/valve/trace.csv"]


def report(name, found):
    count, faults = found
    print(f"{name}: {count} allocations, {f'{len(faults)} WRONG' if faults else 'ok'}", flush=True)
    # One example of each way to end, three at most.
    for end in list(dict.fromkeys(end for _, end in faults))[:3]:
        first = next(n for n, it in faults if it == end)
        print(f"    at {first}: {' '.join(end.split())}")
    return len(faults)


def main(crates):
    wrong = 0
    with tempfile.TemporaryDirectory() as at, ThreadPoolExecutor(os.cpu_count()) as pool:
        shim = f"{at}/shim.so"
        words = ["cc", "-O1", "-shared", "-fPIC", "-x", "c", "-", "-o", shim]
        subprocess.run(words, input=SHIM.encode(), check=True)
        for crate in crates:
            tests = f"{HERE}/crates/{crate}/out/{crate}_tests"
            if not os.path.isfile(tests):
                print(f"{crate}: its tests are not built")
                continue
            listed = subprocess.run([tests, "--list"], capture_output=True).stdout.decode()
            for name in re.findall(r"^(\S+): test$", listed, re.M):
                if AMPLE.search(name):
                    continue
                wrong += report(f"{crate} {name}", faults_of_test(shim, tests, name, pool))
        program = f"{HERE}/crates/canplan/out/canplan"
        if "canplan" in crates and os.path.isfile(program):
            for name, words in calls_of_program():
                wrong += report(f"canplan {name}", faults_of_program(shim, [program, *words], pool))
    print(f"{wrong} wrong")
    return 1 if wrong else 0


if __name__ == "__main__":
    sys.exit(main(sys.argv[1:] or sorted(os.listdir(f"{HERE}/crates"))))
