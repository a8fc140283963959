"""Peers that a script plays: one that sends what it is given, and one between two speakers that inserts messages of its own into a stream."""
import socket
import threading

import messages


class Standing:
    """The state of a session for a side that does no more than answer an OPEN: whether it is up or over, and the received NOTIFICATION."""

    def __init__(self):
        self.notification, self.is_over, self.is_up = None, False, False

    def receive(self, one):
        """Answers an OPEN by a KEEPALIVE, and notes a KEEPALIVE or a NOTIFICATION. Returns whether the message was one of the three."""
        if one[18] == messages.OPEN:
            self.say(messages.keepalive())
        elif one[18] == messages.KEEPALIVE:
            self.is_up = True
        elif one[18] == messages.NOTIFICATION:
            self.notification = (one[19], one[20])
        return one[18] in (messages.OPEN, messages.KEEPALIVE, messages.NOTIFICATION)


class Peer:
    """Accepts one connection, speaks up to Established, then sends octets, and keeps what arrived."""

    def __init__(self, asn, identifier, said, hold=90, early=None):
        self.asn, self.identifier, self.said, self.hold, self.early = asn, identifier, said, hold, early
        self.heard, self.came_from = [], None
        self.listener = socket.create_server(("127.0.0.2", 0))
        self.port = self.listener.getsockname()[1]
        self.thread = threading.Thread(target=self.run, daemon=True)
        self.thread.start()

    def take(self, connection, rest):
        """One more message."""
        while True:
            found, left = messages.split(rest)
            if found:
                self.heard.append(found[0])
                return found[0], rest[len(found[0]) :]
            more = connection.recv(65536)
            if not more:
                return None, left
            rest = left + more

    def run(self):
        self.listener.settimeout(10)
        try:
            connection, (self.came_from, *_) = self.listener.accept()
        except OSError:
            return
        with connection:
            connection.settimeout(10)
            try:
                connection.sendall(messages.open_message(self.asn, self.hold, self.identifier))
                _, rest = self.take(connection, b"")
                if self.early is not None:
                    connection.sendall(self.early)
                else:
                    connection.sendall(messages.keepalive())
                    _, rest = self.take(connection, rest)
                    connection.sendall(self.said)
                while rest is not None:
                    found, rest = self.take(connection, rest)
                    if found is None:
                        return
            except OSError:
                return

    def end(self):
        self.thread.join(15)
        self.listener.close()
        return [m for m in self.heard if m[18] == messages.NOTIFICATION]


class Between:
    """Forwards what goes from one speaker to the other. Once both have sent KEEPALIVE, it inserts messages into the stream of ours."""

    def __init__(self, target, ours_connects, listen="127.0.0.1", source=None, port=0):
        self.target, self.ours_connects, self.source = target, ours_connects, source
        self.extra = []
        self.established = threading.Event()
        self.keepalives = set()
        self.ours = None
        self.lock = threading.Lock()
        self.their_notifications = []
        self.listener = socket.create_server((listen, port))
        self.port = self.listener.getsockname()[1]
        self.thread = threading.Thread(target=self.run, daemon=True)
        self.thread.start()

    def run(self):
        self.listener.settimeout(20)
        while True:
            try:
                first, _ = self.listener.accept()
            except OSError:
                return
            try:
                second = socket.create_connection(self.target, timeout=5, source_address=self.source)
            except OSError:
                first.close()
                continue
            break
        first.settimeout(30)
        second.settimeout(30)
        near, far = (first, second) if self.ours_connects else (second, first)
        self.far = far
        threads = [threading.Thread(target=self.carry, args=pair, daemon=True) for pair in ((near, far, True), (far, near, False))]
        for thread in threads:
            thread.start()
        for thread in threads:
            thread.join()

    def carry(self, source, sink, is_ours):
        rest = b""
        try:
            while True:
                more = source.recv(65536)
                if not more:
                    break
                found, rest = messages.split(rest + more)
                for one in found:
                    if one[18] == messages.KEEPALIVE:
                        self.keepalives.add(is_ours)
                        if len(self.keepalives) == 2:
                            self.established.set()
                    if one[18] == messages.NOTIFICATION and not is_ours:
                        self.their_notifications.append((one[19], one[20]))
                    with self.lock:
                        sink.sendall(one)
        except OSError:
            pass
        for end in (source, sink):
            try:
                end.shutdown(socket.SHUT_RDWR)
            except OSError:
                pass

    def put(self, octets):
        """Inserts messages into the stream of our speaker, between two of its own."""
        with self.lock:
            self.far.sendall(octets)
