"""whole_lines.py COMMAND..: starts it, takes nothing of what it says until it can say no more, and kills it. Status 0 where it had said
something, and nothing but whole lines."""
import array
import fcntl
import subprocess
import sys
import termios
import time

program = subprocess.Popen(sys.argv[1:], stdin=subprocess.DEVNULL, stdout=subprocess.PIPE)


def said():
    """How many bytes stand in the pipe."""
    count = array.array('i', [0])
    fcntl.ioctl(program.stdout, termios.FIONREAD, count)
    return count[0]


before, still = 0, 0
for turn in range(600):
    time.sleep(0.05)
    now = said()
    still = still + 1 if now == before != 0 else 0
    before = now
    if still == 10 or program.poll() is not None:
        break
cut = program.poll() is None
program.kill()
text = program.stdout.read()
program.wait()
sys.exit(0 if cut and text.endswith(b'\n') else 1)
