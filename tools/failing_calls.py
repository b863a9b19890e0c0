"""Runs the built program with calls that fail: the calls that take memory, open, read and write.

A small C library stands before the C library of the run (LD_PRELOAD). It counts the calls of each
sort, lets those fail that are asked for, and takes or gives fewer bytes a call. It wants a C
compiler as `cc`. What it is asked for and what it counted is a page that is shared with the run.
"""
import collections
import errno
import mmap
import os
import resource
import shutil
import signal
import struct
import subprocess
import sys
import tempfile
import time

TOOLS = os.path.dirname(os.path.realpath(__file__))
TOP = os.path.dirname(TOOLS)
SORTS = ["memory", "open", "read", "out", "err"]  # calls that are counted
SOURCE = r"""
#define _GNU_SOURCE
#include <errno.h>
#include <fcntl.h>
#include <stdarg.h>
#include <stddef.h>
#include <stdlib.h>
#include <sys/mman.h>
#include <sys/syscall.h>
#include <sys/uio.h>
#include <unistd.h>

enum { MEMORY, OPEN, READ, OUT, ERR };
struct page {
    long calls[5], failing[5], most[5], room[5]; /* each by the sort of the call */
    long lasting, error, failed, taken; /* taken: bytes read since the last open */
};
static struct page *page;

void *__libc_malloc(size_t);
void *__libc_calloc(size_t, size_t);
void *__libc_realloc(void *, size_t);
void *__libc_memalign(size_t, size_t);

__attribute__((constructor)) static void begin(void) {
    char *name = getenv("FAILING_CALLS");
    int file = name ? syscall(SYS_openat, AT_FDCWD, name, O_RDWR | O_CLOEXEC) : -1;
    if (file < 0) return;
    void *at = mmap(0, sizeof *page, PROT_READ | PROT_WRITE, MAP_SHARED, file, 0);
    syscall(SYS_close, file);
    if (at != MAP_FAILED) page = at;
}
static int fails(int sort) {
    if (!page) return 0;
    long call = ++page->calls[sort], wanted = page->failing[sort];
    if (!wanted || (page->lasting ? call < wanted : call != wanted)) return 0;
    page->failed++;
    errno = page->error;
    return 1;
}
void *malloc(size_t n) { return fails(MEMORY) ? 0 : __libc_malloc(n); }
void *calloc(size_t n, size_t m) { return fails(MEMORY) ? 0 : __libc_calloc(n, m); }
void *realloc(void *p, size_t n) { return fails(MEMORY) ? 0 : __libc_realloc(p, n); }
void *aligned_alloc(size_t a, size_t n) { return fails(MEMORY) ? 0 : __libc_memalign(a, n); }
void *memalign(size_t a, size_t n) { return fails(MEMORY) ? 0 : __libc_memalign(a, n); }
int posix_memalign(void **p, size_t a, size_t n) {
    if (fails(MEMORY)) return ENOMEM;
    return (*p = __libc_memalign(a, n)) ? 0 : ENOMEM;
}

static int opens(int folder, const char *name, int flags, int mode) {
    if (fails(OPEN)) return -1;
    if (page) page->taken = 0;
    return syscall(SYS_openat, folder, name, flags, mode);
}
#define MODE int mode = 0; if (flags & (O_CREAT | __O_TMPFILE)) { \
    va_list more; va_start(more, flags); mode = va_arg(more, int); va_end(more); }
int open(const char *name, int flags, ...) { MODE return opens(AT_FDCWD, name, flags, mode); }
int open64(const char *name, int flags, ...) { MODE return opens(AT_FDCWD, name, flags, mode); }
int openat(int at, const char *name, int flags, ...) { MODE return opens(at, name, flags, mode); }
int openat64(int at, const char *name, int flags, ...) { MODE return opens(at, name, flags, mode); }

static size_t most(int sort, size_t n) {
    return page && page->most[sort] && (size_t)page->most[sort] < n ? (size_t)page->most[sort] : n;
}
static ssize_t took(ssize_t count) {
    if (page && count > 0) page->taken += count;
    return count;
}
ssize_t read(int file, void *into, size_t n) {
    if (fails(READ)) return -1;
    return took(syscall(SYS_read, file, into, most(READ, n)));
}
ssize_t pread64(int file, void *into, size_t n, off_t at) {
    if (fails(READ)) return -1;
    return took(syscall(SYS_pread64, file, into, most(READ, n), at));
}
ssize_t pread(int file, void *into, size_t n, off_t at) { return pread64(file, into, n, at); }
ssize_t readv(int file, const struct iovec *parts, int count) {
    for (int i = 0; i < count; i++)
        if (parts[i].iov_len) return read(file, parts[i].iov_base, parts[i].iov_len);
    return read(file, 0, 0);
}
ssize_t write(int file, const void *from, size_t n) {
    int sort = file == 1 ? OUT : ERR;
    if (file != 1 && file != 2) return syscall(SYS_write, file, from, n);
    if (fails(sort)) return -1;
    n = most(sort, n);
    if (page && page->room[sort] >= 0) {
        if (n && !page->room[sort]) { page->failed++; errno = page->error; return -1; }
        if (n > (size_t)page->room[sort]) n = page->room[sort];
        page->room[sort] -= n;
    }
    return syscall(SYS_write, file, from, n);
}
ssize_t writev(int file, const struct iovec *parts, int count) {
    for (int i = 0; i < count; i++)
        if (parts[i].iov_len) return write(file, parts[i].iov_base, parts[i].iov_len);
    return write(file, 0, 0);
}
"""
PAGE = struct.Struct("24l")

Run = collections.namedtuple("Run", "status out err calls failed taken seconds")
# The status of a run, None where it did not end, and its texts; how many calls of each sort there
# were, how many of them failed as was asked, and the bytes that were read of the last file.


class Calls:
    """The library, which is made anew in a folder for temporary files."""

    def __init__(self, folder):
        self.folder = folder
        self.library = os.path.join(folder, "failing_calls.so")
        if not os.path.exists(self.library):
            source = os.path.join(folder, "failing_calls.c")
            with open(source, "w", encoding="ascii") as file:
                file.write(SOURCE)
            command = ["cc", "-O1", "-shared", "-fPIC", "-o", self.library, source]
            subprocess.run(command, check=True)

    def run(self, command, folder, failing=None, lasting=False, error=errno.EIO, most=None,
            room=None, seconds=20, streams=None):
        """Runs a command in a folder. `failing` has the number of the call that fails of a sort,
        with all later ones where it is `lasting`; `most` the most bytes of a call, and `room` the
        bytes that fit in all. `streams` are standard output and error in place of pipes."""
        failing, most, room = failing or {}, most or {}, room or {}
        words = [[asked.get(sort, default) for sort in SORTS]
                 for asked, default in (({}, 0), (failing, 0), (most, 0), (room, -1))]
        with tempfile.NamedTemporaryFile(dir=self.folder, prefix="page-") as file:
            file.write(PAGE.pack(*sum(words, []), lasting, error, 0, 0))
            file.flush()
            with mmap.mmap(file.fileno(), PAGE.size) as page:
                ended = self.end_of(command, folder, file.name, seconds, streams)
                counted = PAGE.unpack(page[:])
        calls = dict(zip(SORTS, counted))
        return Run(*ended[:3], calls, counted[22], counted[23], ended[3])

    def end_of(self, command, folder, page, seconds, streams):
        where = {"FAILING_CALLS": page, "LD_PRELOAD": self.library}
        out, err = streams or (subprocess.PIPE, subprocess.PIPE)
        started = time.monotonic()
        child = subprocess.Popen(command, cwd=folder, stdin=subprocess.DEVNULL, stdout=out,
                                 stderr=err, env={**os.environ, **where}, preexec_fn=no_core)
        try:
            texts = child.communicate(timeout=seconds)
            status = child.returncode
        except subprocess.TimeoutExpired:
            child.kill()
            texts, status = child.communicate(), None
        return status, texts[0] or b"", texts[1] or b"", time.monotonic() - started


def no_core():
    resource.setrlimit(resource.RLIMIT_CORE, (0, 0))


def end_name(status):
    if status is None:
        return "it did not end in time"
    return f"signal {signal.Signals(-status).name}" if status < 0 else f"status {status}"


# ---- the program and what it is run on


def built_program(given):
    """The program of the words, or that of this repository, which is built where need be."""
    if given:
        return os.path.abspath(given)
    # Without words the script builds the program where need be, says its usage and ends with 2.
    built = subprocess.run([os.path.join(TOP, "swmm-rules")], stdout=subprocess.DEVNULL,
                           stderr=subprocess.DEVNULL).returncode
    if built != 2:
        print("the program is not built: ./swmm-rules says why", file=sys.stderr)
        sys.exit(70)
    return os.path.join(TOP, "crates", "swmm_rules_bin", "out", "swmm_rules_bin")


ROLES = {  # the files of each command, in the order of its words
    "check": ["input"], "tables": ["input"], "replay": ["input", "trace"],
    "prove": ["input", "ranges"], "verify": ["input", "ranges", "report"], "gen": []}
ENDINGS = {"input": ".inp", "trace": ".csv", "ranges": ".ranges", "report": ".report"}
PLANT = {  # a model with a controller, a curve, a series, a formula, a gage and a moving gate
    "plant.inp": """[OPTIONS]
START_DATE 06/15/2001
START_TIME 20:00
ROUTING_STEP 0:00:30
[RAINGAGES]
Roof
[JUNCTIONS]
Well
Basin
[CONDUITS]
Main
[PUMPS]
Duty Well Basin * OFF
[ORIFICES]
Gate Basin Well SIDE 0 0.65 NO 0.5
[WEIRS]
Crest
[OUTLETS]
Drain
[CURVES]
Opening Control 0 0 1 0.25
Opening 4 1
[TIMESERIES]
Plan 06/15/2001 20:00 0.2 20:10 0.8
Plan 06/16/2001 06:00 0.5
[CONTROLS]
VARIABLE Depth = NODE Well DEPTH
VARIABLE Rain = GAGE Roof INTENSITY
EXPRESSION Load = (Depth - 0.5) ^ 2 / 3 + abs(Rain) * step(Depth - 2)
RULE Start
IF Load > 1.5
OR PUMP Duty TIMECLOSED > 0:20
THEN PUMP Duty STATUS = ON
AND OUTLET Drain SETTING = 1
ELSE PUMP Duty SETTING = 0.5
PRIORITY 2
RULE Rest
IF SIMULATION CLOCKTIME >= 22:30
AND NODE Basin DEPTH <= NODE Well DEPTH
THEN PUMP Duty STATUS = OFF
PRIORITY 3
RULE Hold
IF LINK Main FLOW <> 1.6
THEN ORIFICE Gate SETTING = PID 0.1 2 0.01
RULE Shape
IF NODE Basin DEPTH > 0
THEN WEIR Crest SETTING = CURVE Opening
ELSE WEIR Crest SETTING = TIMESERIES Plan
""",
    "plant.csv": """moment,NODE Well DEPTH,NODE Basin DEPTH,LINK Main FLOW,GAGE Roof INTENSITY
2001-06-15T20:00:00,0.4,1.2,1.5,0
2001-06-15T20:05:00,2.5,1.3,1.7,3.2
2001-06-15T20:12:30,3,,1.65,12
2001-06-15T22:30:00,1.1,0,1.6,0.5
2001-06-15T22:35:00,1.1,0.7,,0
""",
    "plant.ranges": """NODE Well DEPTH 0 5
NODE Basin DEPTH 0 4
LINK Main FLOW 0 3
GAGE Roof INTENSITY 0 60
PUMP Duty TIMECLOSED 0 24
MOMENT 2001-06-15T20:00:00 2001-06-16T06:00:00
CONFLICT Start Rest Duty
DEAD Shape
LIMIT Crest 0 1
LIMIT Drain 0 0.5
""",
    "plant.report": """report 2
question limit Drain 0 0.5
undecided count 9
question limit Crest 0 1
holds
leaf
end
""",
    "refused.inp": "[PUMPS]\nLead\n[CONTROLS]\nRULE One\nIF NODE Well DEPTH > 1\n",
    "refused.csv": "moment,NODE WetWell DEPTH\n2001-06-15T00:00:00,6\n2001-06-15T00:00:00,7\n",
    "refused.ranges": "NODE WetWell DEPTH 0 6\nNODE Tank DEPTH 4 3.5\n",
    "refused.report": "report 2\nquestion conflict 1 2 Lead\nholds\nleaf\nfact 1 no\nend\n"}
CASES = [  # the words of each run
    "check two-pumps.inp", "check storm-tank.inp", "check plant.inp", "check refused.inp",
    "tables storm-tank.inp", "tables plant.inp",
    "replay two-pumps.inp two-pumps.csv", "replay storm-tank.inp storm-tank.csv",
    "replay plant.inp plant.csv", "replay two-pumps.inp refused.csv",
    "prove storm-tank.inp storm-tank.ranges", "prove plant.inp plant.ranges",
    "prove storm-tank.inp refused.ranges",
    "verify storm-tank.inp storm-tank.ranges storm-tank.report",
    "verify plant.inp plant.ranges plant.report",
    "verify storm-tank.inp storm-tank.ranges refused.report", "gen 1", "check"]


def write_files(folder):
    """The files of all cases: those of examples/ and those above."""
    examples = os.path.join(TOP, "examples")
    for name in os.listdir(examples):
        shutil.copyfile(os.path.join(examples, name), os.path.join(folder, name))
    for name, text in PLANT.items():
        with open(os.path.join(folder, name), "w", encoding="ascii") as file:
            file.write(text)


def roles_of(case):
    """The role of each file of a run."""
    words = case.split()
    roles = ROLES.get(words[0], [])
    return roles if len(words) == len(roles) + 1 else []


def chosen(cases):
    """The cases whose words have all these words in them."""
    return [case for case in CASES if not cases or any(part in case for part in cases)]
