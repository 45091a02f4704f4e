"""Runs a program under the system's interface for debuggers (ptrace), to count its threads and measure their CPU time."""
import ctypes
import os
import signal
from typing import NamedTuple

# of <sys/ptrace.h> and <sys/wait.h> of Linux
TRACE_ME, CONTINUE, SET_OPTIONS = 0, 7, 0x4200
AT_CLONE, AT_EXIT, EXIT_KILL = 0x8, 0x40, 0x100000
EXITING, WAIT_ALL = 6, 0x40000000


class Watched(NamedTuple):
    """The exit status of a run; the CPU time of its first thread, and of each thread that it started, in ns."""

    status: int
    own: int
    started: list[int]


def ptrace(request: int, thread: int, value: int = 0) -> None:
    call = ctypes.CDLL(None, use_errno=True).ptrace
    call.restype, call.argtypes = ctypes.c_long, [ctypes.c_long, ctypes.c_long, ctypes.c_void_p, ctypes.c_void_p]
    if call(request, thread, None, value) < 0:
        raise OSError(ctypes.get_errno(), "ptrace")


def begun(program: str, folder: str, words: list[str]) -> int:
    """Starts the program in a directory, with its outputs discarded, and stopped at its beginning. Returns its number."""
    process = os.fork()
    if process == 0:
        try:
            os.chdir(folder)
            nothing = os.open(os.devnull, os.O_RDWR)
            for stream in range(3):
                os.dup2(nothing, stream)
            ptrace(TRACE_ME, 0)
            os.execv(program, [program, *words])
        finally:
            os._exit(126)
    _, status = os.waitpid(process, 0)
    if not os.WIFSTOPPED(status):
        raise OSError(f"{program} can't be traced")
    ptrace(SET_OPTIONS, process, AT_CLONE | AT_EXIT | EXIT_KILL)
    ptrace(CONTINUE, process)
    return process


def watched(program: str, folder: str, words: list[str]) -> Watched:
    """Runs the program. Each thread is stopped at its end, when its CPU time is known."""
    process, times = begun(program, folder, words), {}
    while True:
        thread, status = os.waitpid(-1, WAIT_ALL)
        if os.WIFSTOPPED(status):
            event, signalled = status >> 16, os.WSTOPSIG(status)
            if event == EXITING:
                with open(f"/proc/{process}/task/{thread}/schedstat", encoding="ascii") as file:
                    times[thread] = int(file.read().split()[0])
            ptrace(CONTINUE, thread, 0 if event or signalled == signal.SIGSTOP else signalled)
        elif thread == process:
            return Watched(os.waitstatus_to_exitcode(status), times.pop(process), list(times.values()))
