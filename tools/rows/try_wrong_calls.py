#!/usr/bin/env python3
"""Tries wrong ways to call the system, each of which fails in test_edges.py: try_wrong_calls.py PROGRAM [WORD ..]

Each is a library that is loaded before the C library, and compiled by `cc`. It does what a wrong body of the adapters
would do, as to take an interrupted read for the end of the file. Printed is for each the first case that failed. With
words only those are tried in whose names one of them is.
Status: 0 where each failed one, 1 where one passed all, 2 where nothing could be tried.
"""

import os
import shutil
import subprocess
import sys
import tempfile
from pathlib import Path

from test_edges import cases, check

HEAD = r"""
#define _GNU_SOURCE
#include <dlfcn.h>
#include <errno.h>
#include <fcntl.h>
#include <stdarg.h>
#include <stdio.h>
#include <string.h>
#include <sys/stat.h>
#include <unistd.h>
#define REAL(name) ((__typeof__(&name))dlsym(RTLD_NEXT, #name))
"""
READ = (
    "ssize_t read(int file, void *into, size_t count) { ssize_t done = REAL(read)(file, into, count); %s return done; }"
)
WRITE = "ssize_t write(int file, const void *from, size_t count) { %s }"
WRITE_AT = (
    "ssize_t pwrite64(int file, const void *from, size_t count, off64_t at)"
    " { ssize_t done = REAL(pwrite64)(file, from, count, at); %s return done; }"
    # (a build with checks calls it by its other name)
    " ssize_t pwrite(int file, const void *from, size_t count, off_t at) { return pwrite64(file, from, count, at); }"
)
READ_AT = (
    "ssize_t pread64(int file, void *into, size_t count, off64_t at)"
    " { ssize_t done = REAL(pread64)(file, into, count, at); %s }"
    " ssize_t pread(int file, void *into, size_t count, off_t at) { return pread64(file, into, count, at); }"
)
OPEN = (
    "int open(const char *path, int flags, ...)"
    " { char name[4096]; strcpy(name, path); %s return REAL(open)(name, flags, 0666); }"
)
STATX = (
    "int statx(int at, const char *path, int flags, unsigned mask, struct statx *into)"
    " { int done = REAL(statx)(at, path, flags, mask, into); %s return done; }"
)
WRONG = {
    "an interrupted read is the end": READ % "if (done < 0 && errno == EINTR) return 0;",
    "an interrupted read is a fault": READ % "if (done < 0 && errno == EINTR) errno = EIO;",
    "a short read is the end": READ % "static int short_; if (short_) return 0; short_ = done > 0 && done < 200;",
    "an interrupted write is a fault": WRITE
    % "ssize_t done = REAL(write)(file, from, count); if (done < 0 && errno == EINTR) errno = EIO; return done;",
    "a failed write is none": WRITE
    % "ssize_t done = REAL(write)(file, from, count); return done < 0 ? (ssize_t)count : done;",
    "the status goes to standard output": WRITE % "return REAL(write)(file == 2 ? 1 : file, from, count);",
    "lines go to standard error": WRITE % "return REAL(write)(file == 1 ? 2 : file, from, count);",
    "blanks at the end of a name are dropped": OPEN
    % "for (size_t end = strlen(name); end && name[end - 1] == ' '; ) name[--end] = 0;",
    "bytes of a name above 7F are dropped": OPEN
    % "char *to = name; for (const char *from = path; *from; from++) if (*from > 0) *to++ = *from; *to = 0;",
    "an interrupted opening is a fault": OPEN
    % "int file = REAL(open)(name, flags, 0666); if (file < 0 && errno == EINTR) errno = EIO; return file;",
    "an interrupted sync is a fault": "int fdatasync(int file)"
    " { int done = REAL(fdatasync)(file); if (done && errno == EINTR) errno = EIO; return done; }",
    "an interrupted write to the journal is a fault": WRITE_AT % "if (done < 0 && errno == EINTR) errno = EIO;",
    "a failed write to the journal is none": WRITE_AT % "if (done < 0) return (ssize_t)count;",
    "an interrupted read of the journal is the end": READ_AT % "return done < 0 && errno == EINTR ? 0 : done;",
    "a longer area is cut": STATX
    % "if (!done && into->stx_size > 1024 && into->stx_size < 1100) into->stx_size = 1024;",
    "a shorter area is empty": STATX % "if (!done && into->stx_size > 0 && into->stx_size < 1024) into->stx_size = 0;",
    "a short write is whole": WRITE % "if (file > 2 || count < 2) return REAL(write)(file, from, count);"
    " return REAL(write)(file, from, count / 2) < 0 ? -1 : (ssize_t)count;",
    "a failed read is the end": READ % "if (done < 0) return 0;",
    "a failed read of the journal is the end": READ_AT % "return done < 0 ? 0 : done;",
    "a file that can't be opened is empty": OPEN % "int file = REAL(open)(name, flags, 0666);"
    ' return file < 0 && strstr(name, ".t") ? REAL(open)("/dev/null", flags) : file;',
    "the status isn't told": WRITE % "return file == 2 ? (ssize_t)count : REAL(write)(file, from, count);",
    "a failed sync is none": "int fdatasync(int file) { REAL(fdatasync)(file); return 0; }",
    "nothing is synced": "int fdatasync(int file) { return 0; }",
    "the journal's folder isn't synced": "int fsync(int file) { return 0; }",
    "the journal isn't locked": "int flock(int file, int how) { return 0; }",
    "the journal is made before anything is stored": OPEN % 'if (strstr(name, ".jnl")) flags |= O_CREAT;',
    "a full disk has the journal made": OPEN % "int file = REAL(open)(name, flags, 0666);"
    ' return file < 0 && errno == ENOSPC ? REAL(open)("other", flags, 0666) : file;',
    "the older area is emptied": OPEN
    % 'if (strstr(name, ".bin")) { int file = REAL(open)(name, O_WRONLY | O_TRUNC); if (file >= 0) close(file); }',
    "an area that can't be opened is none": OPEN
    % "int file = REAL(open)(name, flags, 0666); if (file < 0 && errno == ELOOP) errno = ENOENT; return file;",
}


def compiled(folder: str, text: str) -> str:
    """Returns the library of a text of C."""
    Path(folder, "wrong.c").write_text(HEAD + text + "\n")
    library = f"{folder}/wrong.so"
    subprocess.run(["cc", "-shared", "-fPIC", "-w", "-o", library, f"{folder}/wrong.c", "-ldl"], check=True)
    return library


def main() -> int:
    if len(sys.argv) < 2 or not os.access(sys.argv[1], os.X_OK) or not shutil.which("cc"):
        print("usage: try_wrong_calls.py PROGRAM [WORD ..]; it needs cc", file=sys.stderr)
        return 2
    program, passed = os.path.abspath(sys.argv[1]), 0
    chosen = [it for it in WRONG if any(word in it for word in sys.argv[2:] or [""])]
    for name in chosen:
        with tempfile.TemporaryDirectory(prefix="wrong-") as folder:
            library = compiled(folder, WRONG[name])
            failed = next((case for case, test in cases() if check(program, test, library)), None)
        passed += failed is None
        print(f"{name:46} {failed or 'PASSED'}", flush=True)
    return 1 if passed else 0


if __name__ == "__main__":
    sys.exit(main())
