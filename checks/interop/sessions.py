"""A peer's sessions, by script, with the guard or a daemon."""
import pathlib
import socket
import sys
import threading
import time

sys.path.insert(0, str(pathlib.Path(__file__).resolve().parent.parent / "guard"))
import daemons
import guards
import messages
from daemons import OUR_AS
from peers import Standing
from speakers import eventually

OPENED = messages.open_message(OUR_AS, 90, "192.0.2.2")


class Session(Standing):
    """A peer in front of the guard or of the daemon itself, which sends KEEPALIVEs by itself."""

    def __init__(self, to, source):
        super().__init__()
        self.sent = 0
        self.lock = threading.Lock()
        self.peer = guards.Peer.connect(to[1], OUR_AS, source, to[0], daemons.HOLD)
        self.peer.connection.setsockopt(socket.IPPROTO_TCP, socket.TCP_NODELAY, 1)
        self.say(OPENED)
        self.thread = threading.Thread(target=self.hear, daemon=True)
        self.thread.start()
        eventually(lambda: self.is_up or self.is_over, 8)
        self.pulse = threading.Thread(target=self.beat, daemon=True)
        self.pulse.start()

    def hear(self):
        while True:
            try:
                one = self.peer.hear()
            except OSError:
                one = None
            if not isinstance(one, bytes):
                self.is_over = True
                return
            self.receive(one)

    def say(self, *pieces, pause=0.003):
        """Sends octets in these pieces, with no KEEPALIVE between them. Answers how many were sent before."""
        with self.lock:
            before = self.sent
            for piece in pieces:
                try:
                    self.peer.say(piece)
                except OSError:
                    self.is_over = True
                self.sent += len(piece)
                time.sleep(pause if piece is not pieces[-1] else 0)
        return before

    def beat(self):
        while not self.is_over:
            self.say(messages.keepalive())
            time.sleep(1)

    def close(self):
        self.is_over = True
        self.peer.close()


def begin(to, source, daemon):
    """A session that is up, or none."""
    for _ in range(12):
        daemon.wake()
        try:
            session = Session(to, source)
        except OSError:
            time.sleep(0.5)
            continue
        if session.is_up:
            return session
        session.close()
        time.sleep(1)
    return None
