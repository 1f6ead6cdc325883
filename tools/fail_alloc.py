#!/usr/bin/env python3
"""Runs the program on examples with each of its allocations failing in turn: each such run must answer
want of memory (status 5), write nothing on standard output, and say so on standard error; or, where what failed
was to keep the text for a sentence, answer as with enough memory. What is asked for is the last function that an
example has, or what a session asks for.

Usage: tools/fail_alloc.py [EXAMPLE..]      (those of EXAMPLES where none is given; needs a C compiler)
Build the program first: cd crates/infer_tool && rt run -- table fn 0 < ../../examples/first_run.json
"""
import json
import os
import subprocess
import sys
import tempfile

TOP = os.path.dirname(os.path.dirname(os.path.abspath(__file__)))
PROGRAM = os.path.join(TOP, "crates", "infer_tool", "out", "infer_tool")
EXAMPLES = [os.path.join(TOP, "examples", name) for name in ("first_run.json", "calls.json", "constructors.json", "session.json")]

# Fails the allocation whose number FAIL_AT gives, from 1, and each one after it where ALL is set. Makes the file FAILED
# where one failed.
SHIM = r"""
#define _GNU_SOURCE
#include <dlfcn.h>
#include <errno.h>
#include <fcntl.h>
#include <stdlib.h>
#include <unistd.h>
static long made, fail_at = -1, all;
static int fails(void) {
    if (fail_at < 0) {
        const char *at = getenv("FAIL_AT");
        fail_at = at ? atol(at) : 0;
        all = getenv("FAIL_ALL") != 0;
    }
    made += 1;
    if (!fail_at || made < fail_at || (made > fail_at && !all)) return 0;
    if (made == fail_at) close(creat(getenv("FAILED"), 0600));
    return 1;
}
void *malloc(size_t n) {
    static void *(*real)(size_t);
    if (!real) real = dlsym(RTLD_NEXT, "malloc");
    if (fails()) { errno = ENOMEM; return 0; }
    return real(n);
}
void *realloc(void *p, size_t n) {
    static void *(*real)(void *, size_t);
    if (!real) real = dlsym(RTLD_NEXT, "realloc");
    if (fails()) { errno = ENOMEM; return 0; }
    return real(p, n);
}
void *aligned_alloc(size_t a, size_t n) {
    static void *(*real)(size_t, size_t);
    if (!real) real = dlsym(RTLD_NEXT, "aligned_alloc");
    if (fails()) { errno = ENOMEM; return 0; }
    return real(a, n);
}
int posix_memalign(void **p, size_t a, size_t n) {
    static int (*real)(void **, size_t, size_t);
    if (!real) real = dlsym(RTLD_NEXT, "posix_memalign");
    if (fails()) return ENOMEM;
    return real(p, a, n);
}
"""


def failed_in_turn(example, folder, every):
    """Fails the allocations, each alone or with each after it. How many runs that was, how many of them answered as with
    enough memory, and how many wrongly."""
    text = open(example, "rb").read()
    value = json.loads(text)
    words = [PROGRAM] + (["session"] if "commands" in value else ["table", "fn", str(len(value["fns"]) - 1)])
    want = subprocess.run(words, input=text, capture_output=True, timeout=10)
    failed = os.path.join(folder, "failed")
    count = whole = wrong = 0
    while count < 100000:
        env = dict(os.environ, LD_PRELOAD=os.path.join(folder, "shim.so"), FAIL_AT=str(count + 1), FAILED=failed)
        if every:
            env["FAIL_ALL"] = "1"
        done = subprocess.run(words, input=text, capture_output=True, env=env, timeout=10)
        if not os.path.exists(failed):
            break
        os.remove(failed)
        count += 1
        if (done.returncode, done.stdout, done.stderr) == (want.returncode, want.stdout, want.stderr):
            whole += 1
        elif done.returncode != 5 or done.stdout or not done.stderr:
            wrong += 1
            print("allocation %d: status %d, %d bytes out, %r" % (count, done.returncode, len(done.stdout), done.stderr))
    return count, whole, wrong


def main():
    if "--help" in sys.argv[1:]:
        print(__doc__.strip())
        return
    with tempfile.TemporaryDirectory() as folder:
        source, shim = os.path.join(folder, "shim.c"), os.path.join(folder, "shim.so")
        with open(source, "w") as out:
            out.write(SHIM)
        subprocess.run(["cc", "-shared", "-fPIC", "-O1", "-o", shim, source, "-ldl"], check=True)
        for example in sys.argv[1:] or EXAMPLES:
            for every in (False, True):
                count, whole, wrong = failed_in_turn(example, folder, every)
                print("%s: %d allocations failed in turn%s: %d answered all the same, %d wrong" % (
                    os.path.basename(example), count, ", with each after it" if every else "", whole, wrong))
                if wrong:
                    sys.exit(1)


if __name__ == "__main__":
    main()
