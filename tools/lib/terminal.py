"""terminal.py DESCRIPTOR WORDS..: runs a program whose standard error is a terminal of its own. What it says there is passed on at
once, so that its progress shows, and also goes to the descriptor, a carriage return as a line's end."""
import os
import pty
import signal
import subprocess
import sys
import termios


def leave_bytes_alone(terminal):
    modes = termios.tcgetattr(terminal)
    modes[1] &= ~termios.OPOST
    termios.tcsetattr(terminal, termios.TCSANOW, modes)


def write_all(descriptor, data):
    while data:
        data = data[os.write(descriptor, data):]


def pass_on(terminal, lines):
    while True:
        try:
            said = os.read(terminal, 1 << 16)
        except OSError:  # nobody has the other side open any more
            return
        write_all(2, said)
        write_all(lines, said.replace(b"\r", b"\n"))


def main():
    here, there = pty.openpty()
    leave_bytes_alone(there)
    with subprocess.Popen(sys.argv[2:], stderr=there) as running:
        signal.signal(signal.SIGINT, signal.SIG_IGN)  # the program's to hear
        os.close(there)
        pass_on(here, int(sys.argv[1]))
    sys.exit(running.returncode if running.returncode >= 0 else 128 - running.returncode)


if __name__ == "__main__":
    main()
