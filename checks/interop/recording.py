"""The traffic over ports of loopback, recorded by tcpdump, and what contrib/why says of it."""
import pathlib
import signal
import subprocess
import time

TOP = pathlib.Path(__file__).resolve().parent.parent.parent


class Capture:
    """What goes over a port, in a file."""

    def __init__(self, folder, ports):
        self.path = pathlib.Path(folder) / "session.pcap"
        words = ["tcpdump", "--immediate-mode", "-U", "-i", "lo", "-B", "8192", "-w", str(self.path), " or ".join(f"tcp port {it}" for it in ports)]
        self.process = subprocess.Popen(words, stderr=subprocess.PIPE, stdout=subprocess.DEVNULL, stdin=subprocess.DEVNULL, text=True)
        while "listening on" not in (self.process.stderr.readline() or "listening on"):
            pass

    def end(self):
        time.sleep(0.5)
        self.process.send_signal(signal.SIGINT)
        self.process.communicate(timeout=10)

    def told(self, program, number):
        done = subprocess.run(
            [str(TOP / "contrib/why"), str(self.path), "--port", str(number), "--program", str(program)], capture_output=True, text=True, check=False,
        )
        return done.stderr + done.stdout
