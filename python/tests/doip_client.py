"""A tester's end of DoIP for the tests, written from ISO 13400-2 by itself: it shares nothing with natukeri.doip."""
import os
import re
import socket
import struct
import subprocess
import sys

HERE = os.path.dirname(os.path.abspath(__file__))
PACKAGE = os.path.dirname(HERE)
TESTER, ENTITY, FUNCTIONAL = 0x0E00, 0x1010, 0xE400
SECONDS = 60
PENDING = 0x78


def message(kind, payload=b"", version=2, inverse=None, length=None):
    inverse = 0xFF - version if inverse is None else inverse
    return struct.pack(">BBHI", version, inverse, kind, len(payload) if length is None else length) + payload


class Process:
    """natukeri.doip in a process of its own, on a free port. A connection may take longer there than the standard's times to its activation and to
    the answer of an alive check, so that a machine with other work fails no test."""

    def __init__(self, *words, initial=30.0, alive=3.0):
        env = {**os.environ, "PYTHONPATH": PACKAGE, "PYTHONDONTWRITEBYTECODE": "1"}
        begin = (f"from natukeri import doip; from nvmtools.tool import run_tool; doip.INITIAL_SECONDS, doip.ALIVE_SECONDS = {initial}, {alive}; "
                 "run_tool(doip.main, doip.__doc__, doip.words, 'natukeri.doip')")
        self.ran = subprocess.Popen([sys.executable, "-c", begin, *words, "--port", "0"], stdout=subprocess.PIPE, stderr=subprocess.PIPE,
                                    text=True, env=env)
        self.said = self.ran.stdout.readline()
        found = re.fullmatch(r"0x[0-9a-f]{4} on 127\.0\.0\.1:(\d+), \d+ identifiers\n", self.said)
        if not found:
            raise AssertionError(f"the server ended with {self.ran.wait()}: {self.ran.stderr.read()}")
        self.port = int(found[1])

    def kill(self):
        self.ran.kill()
        self.wait()

    def end(self):
        """Ends it, and gives its status and what it complained of."""
        self.ran.terminate()
        return self.wait()

    def wait(self):
        _, said = self.ran.communicate(timeout=SECONDS)
        return self.ran.returncode, said

    def kilobytes(self):
        """The memory that it has."""
        with open(f"/proc/{self.ran.pid}/status", encoding="ascii") as file:
            return int(re.search(r"VmRSS:\s+(\d+)", file.read())[1])


class Client:
    """A connection: its messages one after the other, however they come in segments."""

    def __init__(self, port, tester=TESTER, activates=True):
        self.socket = socket.create_connection(("127.0.0.1", port), SECONDS)
        self.socket.setsockopt(socket.IPPROTO_TCP, socket.TCP_NODELAY, 1)
        self.stream, self.tester = self.socket.makefile("rb"), tester
        if activates:
            code = self.activate(tester)
            if code != 0x10:
                raise AssertionError(f"the activation of {tester:04x} is answered with {code:02x}")

    def close(self):
        self.stream.close()
        self.socket.close()

    def send(self, kind, payload=b"", **more):
        self.socket.sendall(message(kind, payload, **more))

    def receive(self):
        """The type and the payload of the next message, or None where the connection was closed."""
        try:
            head = self.stream.read(8)
        except ConnectionError:
            return None
        if len(head) < 8:
            return None
        version, inverse, kind, length = struct.unpack(">BBHI", head)
        if version + inverse != 0xFF:
            raise AssertionError(f"no header: {head.hex()}")
        return kind, self.stream.read(length)

    def activate(self, tester, kind=0):
        """The code with which a routing activation is answered."""
        self.send(0x0005, struct.pack(">HBI", tester, kind, 0))
        found, payload = self.receive()
        if (found, payload[:4]) != (0x0006, struct.pack(">HH", tester, ENTITY)):
            raise AssertionError(f"no answer to an activation: {found:04x} {payload.hex()}")
        return payload[4]

    def request(self, text, target=ENTITY):
        self.send(0x8001, struct.pack(">HH", self.tester, target) + bytes.fromhex(text))

    def acknowledged(self):
        """The code of an acknowledgement, as ack 00 or nack 02."""
        kind, payload = self.receive()
        if kind not in (0x8002, 0x8003):
            raise AssertionError(f"no acknowledgement: {kind:04x} {payload.hex()}")
        return f"{'ack' if kind == 0x8002 else 'nack'} {payload[4]:02x}"

    def answered(self):
        """The next answer of the unit but those that say that one is pending."""
        while True:
            kind, payload = self.receive()
            if (kind, payload[:4]) != (0x8001, struct.pack(">HH", ENTITY, self.tester)):
                raise AssertionError(f"no answer: {kind:04x} {payload.hex()}")
            if not (len(payload) == 7 and payload[4] == 0x7F and payload[6] == PENDING):
                return payload[4:].hex()

    def ask(self, *requests):
        """The answer to each request, behind its acknowledgement, or the code of a refused one."""
        found = []
        for text in requests:
            self.request(text)
            code = self.acknowledged()
            found.append(self.answered() if code == "ack 00" else code)
        return found

    def is_closed(self):
        return self.receive() is None


def datagram(port, data, seconds=SECONDS):
    """The answer to a datagram, or None where none comes for so many seconds."""
    with socket.socket(socket.AF_INET, socket.SOCK_DGRAM) as it:
        it.settimeout(seconds)
        it.sendto(data, ("127.0.0.1", port))
        try:
            return it.recv(4096)
        except socket.timeout:
            return None
