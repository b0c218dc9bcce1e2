"""A gateway between two loopback ports, as a process: datagrams to it, datagrams from it, and what it says."""
import contextlib
import os
import signal
import socket
import subprocess
import tempfile
import time

from lib.command import Stop

MANY = 20000  # more datagrams than a receive queue holds


def loopback(limit):
    one = socket.socket(socket.AF_INET, socket.SOCK_DGRAM)
    one.bind(("127.0.0.1", 0))
    one.settimeout(limit)
    return one


@contextlib.contextmanager
def gateway(words, limit):
    """The words start it, with its port and the one to send to behind them; it is heard, and ends with the block."""
    with loopback(limit) as free:
        port = free.getsockname()[1]
    with loopback(limit) as to, loopback(limit) as back, tempfile.TemporaryFile() as told:
        with subprocess.Popen([*words, str(port), str(back.getsockname()[1])], stderr=told) as running:
            try:
                to.connect(("127.0.0.1", port))
                one = Gateway(to, back, told, running, limit)
                one.until("is not heard", one.is_heard)
                yield one
            finally:
                running.kill()


class Gateway:
    def __init__(self, to, back, told, running, limit):
        self.to, self.back, self.told, self.running, self.limit = to, back, told, running, limit

    def until(self, failure, holds):
        end = time.monotonic() + self.limit
        while not holds():
            if time.monotonic() > end:
                raise Stop("the gateway " + failure)
            time.sleep(0.01)

    def is_heard(self):
        """Whether an empty datagram, which is no TP, is refused by nobody."""
        try:
            self.to.send(b"")
            time.sleep(0.01)
            self.to.send(b"")
            return True
        except ConnectionRefusedError:
            return False

    def overflow(self, datagram):
        """While it is stopped more comes than its queue holds; it must tell so with one of the next."""
        self.running.send_signal(signal.SIGSTOP)
        for _ in range(MANY):
            self.to.send(datagram)
        self.running.send_signal(signal.SIGCONT)
        self.until("tells no losses", lambda: self.to.send(datagram) and self.is_loss_told())

    def is_loss_told(self):
        return b" datagrams lost\n" in os.pread(self.told.fileno(), 1 << 24, 0)
