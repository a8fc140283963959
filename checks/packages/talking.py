"""Sessions between programs of packages, whatever runs them: two speakers, with a guard between them where one is named."""
import pathlib
import socket
import subprocess
import time

# A session comes up in a second; under qemu, beside other work, in some.
LONGEST = 60


def free_ports(number):
    """Free ports of this machine."""
    held = [socket.create_server(("127.0.0.1", 0)) for _ in range(number)]
    ports = [it.getsockname()[1] for it in held]
    for it in held:
        it.close()
    return ports


def wait_for(port):
    """Waits until a program listens on a port of this machine."""
    sought, ends = f":{port:04X} 00000000:0000 0A ", time.monotonic() + LONGEST
    while sought not in pathlib.Path("/proc/net/tcp").read_text() and time.monotonic() < ends:
        time.sleep(0.05)


def words(own, peer, *more):
    return ["--local-as", str(own), "--peer-as", str(peer), "--id", f"192.0.2.{own % 10}", "--as4", "--ip4", "--seconds", "30", *more]


def guard_run(words):
    """What starts bgp_guard_run between two ports, for one session."""
    return lambda outer, inner: [*words, "--listen", f"127.0.0.1:{outer}", "--to", f"127.0.0.1:{inner}", "--sessions", "1"]


def talk(listening, connecting, guard=None):
    """A session of two speakers, the second of which stops it at the first's KEEPALIVE; through a guard, of which `guard` gives the words. What each
    printed, and its status."""
    inner, outer = free_ports(2)
    pipes = {"stdin": subprocess.DEVNULL, "stdout": subprocess.PIPE, "stderr": subprocess.PIPE}
    began = [subprocess.Popen([*listening, *words(65001, 65002, "--listen", f"127.0.0.1:{inner}")], **pipes)]
    try:
        wait_for(inner)
        if guard:
            began.append(subprocess.Popen(guard(outer, inner), **pipes))
            wait_for(outer)
        began.append(subprocess.Popen([*connecting, *words(65002, 65001, "--messages", "2", f"127.0.0.1:{outer if guard else inner}")], **pipes))
        return [(it.communicate(timeout=LONGEST), it.returncode) for it in began]
    except subprocess.TimeoutExpired as late:
        return [((b"", str(late).encode()), None)]
    finally:
        for it in began:
            if it.poll() is None:
                it.kill()
                it.wait()


def came_up(did, told=(b"\nup 1 ", b"\nend 1 ")):
    """Whether both speakers' session came up, and the guard between them reported so and ended."""
    speakers, guards = (did[0], did[-1]), did[1:-1]
    return len(did) > 1 and all(b"state Established\n" in said[0] for said, _ in speakers) and all(it in said[0] and status == 0 for said, status in guards for it in told)
