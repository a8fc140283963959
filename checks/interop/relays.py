"""Relays between two speakers, which keep what each of them sent."""
import socket
import threading

import messages

RELAYS = "127.0.0.1"


class Relay:
    """Joins each connection to it with one to an address, and keeps what goes each way."""

    def __init__(self, to):
        self.to, self.listener = to, socket.create_server((RELAYS, 0))
        self.port = self.listener.getsockname()[1]
        # Of each connection, what it brought and what it got.
        self.ways = []
        threading.Thread(target=self.accept, daemon=True).start()

    def accept(self):
        while True:
            try:
                near, _ = self.listener.accept()
                far = socket.create_connection(self.to, timeout=10)
            except OSError:
                return
            far.settimeout(None)
            self.ways.append((bytearray(), bytearray()))
            for one, other, kept in ((near, far, self.ways[-1][0]), (far, near, self.ways[-1][1])):
                threading.Thread(target=self.pump, args=(one, other, kept), daemon=True).start()

    @staticmethod
    def pump(one, other, kept):
        try:
            while more := one.recv(65536):
                kept += more
                other.sendall(more)
            other.shutdown(socket.SHUT_WR)
        except OSError:
            pass

    def notifications(self):
        return [it[19:21].hex() for ways in self.ways for way in ways for it in messages.split(bytes(way))[0] if it[18] == messages.NOTIFICATION]

    def close(self):
        self.listener.close()
