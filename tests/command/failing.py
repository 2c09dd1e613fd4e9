"""What makes a run fail, done in its process beforehand: a limit of a file's length, another user, system calls that are refused."""
import ctypes
import os
import resource
import signal
import struct

NOBODY = 65534
LIBC = ctypes.CDLL(None, use_errno=True)

# Numbers of system calls of x86-64, in all their forms.
FLUSH = 74, 75, 277, 306
RENAME = 82, 264, 316
MODE = 91, 268, 452


def limited(most, ignored=True):
    """No file may grow beyond so many bytes; a signal tells of it, unless it is ignored."""
    def before():
        signal.signal(signal.SIGXFSZ, signal.SIG_IGN if ignored else signal.SIG_DFL)
        resource.setrlimit(resource.RLIMIT_FSIZE, (most, most))
    return before


def as_nobody():
    if os.geteuid() == 0:
        os.setgroups([])
        os.setgid(NOBODY)
        os.setuid(NOBODY)


def without(numbers):
    """These system calls fail with an input or output error.

    The filter, for seccomp(2), loads the call's number, goes to the last line if it is one of these, and else to the last but one.
    """
    goes = [(0x15, len(numbers) - k, 0, number) for k, number in enumerate(numbers)]
    lines = [(0x20, 0, 0, 0), *goes, (0x06, 0, 0, 0x7fff0000), (0x06, 0, 0, 0x00050005)]
    code = ctypes.create_string_buffer(b"".join(struct.pack("HBBI", *line) for line in lines))
    program = ctypes.create_string_buffer(struct.pack("HxxxxxxP", len(lines), ctypes.addressof(code)))

    def before(kept=code):
        if LIBC.prctl(38, 1, 0, 0, 0) != 0 or LIBC.prctl(22, 2, program) != 0:
            raise OSError(ctypes.get_errno(), "the filter is refused")
    return before
