"""What AFL++ does with a fork server: runs the command behind the inputs, which are words of hexadecimal digits (`kill`: the process of the run is ended before the
next input is given), and prints of each what the server said and which places of its map are marked."""

import ctypes
import os
import signal
import struct
import sys

CONTROL, STATUS, SIZE = 198, 199, 65536
libc = ctypes.CDLL(None, use_errno=True)
libc.shmat.restype = ctypes.c_void_p
libc.shmat.argtypes = [ctypes.c_int, ctypes.c_void_p, ctypes.c_int]

inputs, command = sys.argv[1].split(","), sys.argv[2:]
shared = libc.shmget(0, SIZE, 0o1600)
assert shared != -1, os.strerror(ctypes.get_errno())
marks = (ctypes.c_ubyte * SIZE).from_address(libc.shmat(shared, None, 0))
theirs, control = os.pipe()
status, answers = os.pipe()
server = os.fork()
if server == 0:
    os.dup2(theirs, CONTROL)
    os.dup2(answers, STATUS)
    os.environ["__AFL_SHM_ID"] = str(shared)
    os.execvp(command[0], command)
os.close(theirs)
os.close(answers)


def answer():
    """The next word that the server says."""
    said = os.read(status, 4)
    assert len(said) == 4, "the server has ended"
    return struct.unpack("<i", said)[0]


try:
    assert answer() == 0
    last = None
    for word in inputs:
        if word == "kill":
            os.kill(last, signal.SIGKILL)
            continue
        with open("input", "wb") as file:
            file.write(bytes.fromhex(word))
        ctypes.memset(marks, 0, SIZE)
        os.write(control, struct.pack("<i", 0))
        last = answer()
        ended = answer()
        how = f"signal {os.WTERMSIG(ended)}" if os.WIFSIGNALED(ended) else f"status {os.WEXITSTATUS(ended)}"
        print(word or "-", how, *(f"{place:x}" for place, mark in enumerate(marks) if mark), flush=True)
finally:
    os.close(control)
    libc.shmctl(shared, 0, None)
    os.waitpid(server, 0)
