"""What bench/kill, bench/garble, bench/rollout and bench/bodies share: messages, the frames of WebSocket, requests over HTTP, operators' lines, and
programs that run.

Over Python's standard library alone, and the writer of messages of examples/python_agent.py. Everything is on the loopback address.
"""
import base64
import hashlib
import os
import re
import signal
import socket
import struct
import subprocess
import sys
import time

sys.path.insert(0, os.path.join(os.path.dirname(os.path.dirname(os.path.abspath(__file__))), "examples"))
from python_agent import block, number


class Bad(Exception):
    """Bytes that are no message."""


def take_varint(message, at):
    value = shift = 0
    while True:
        if at >= len(message) or shift > 63:
            raise Bad
        byte = message[at]
        at += 1
        value |= (byte & 127) << shift
        shift += 7
        if byte < 128:
            return value & (1 << 64) - 1, at


def fields(message):
    """The fields of a message in their order: numbers, with an integer or bytes each. Bad where there is one that is none."""
    at, found = 0, []
    while at < len(message):
        tag, at = take_varint(message, at)
        if tag & 7 == 0:
            value, at = take_varint(message, at)
        else:
            size = {1: 8, 5: 4}.get(tag & 7)
            if tag & 7 == 2:
                size, at = take_varint(message, at)
            if size is None or at + size > len(message) or tag >> 3 == 0:
                raise Bad
            value, at = bytes(message[at:at + size]), at + size
        found.append((tag >> 3, value))
    return found


def field(message, wanted, default=b""):
    """The last field of that number. Bad where it is of another kind than the default."""
    came = [value for found, value in fields(message) if found == wanted]
    if came and type(came[-1]) is not type(default):
        raise Bad
    return came[-1] if came else default


def part(message, wanted):
    """The message in the fields of that number, which proto3 merges: their bytes one behind the other."""
    came = [value for found, value in fields(message) if found == wanted]
    if any(type(value) is not bytes for value in came):
        raise Bad
    return b"".join(came)


def text(content):
    try:
        return content.decode()
    except UnicodeDecodeError:
        raise Bad from None


def files_of(config_map):
    """The files of an AgentConfigMap: bodies by names."""
    files = {}
    for found, entry in fields(config_map):
        if found == 1:
            if type(entry) is not bytes:
                raise Bad
            files[text(field(entry, 1))] = field(part(entry, 2), 1)
    return files


def config_map(files):
    return b"".join(block(1, block(1, name.encode()) + block(2, block(1, body))) for name, body in sorted(files.items()))


class Report:
    """What these scripts look at in an AgentToServer."""

    def __init__(self, message):
        self.bytes = message
        self.uid = field(message, 1)
        self.number = field(message, 2, 0)
        numbers = {found for found, _ in fields(message)}
        self.whole = 3 in numbers
        # 6 effective_config: 1 config_map. 7 remote_config_status: 1 hash, 2 status (1 is applied, 3 failed), 3 error_message
        self.files = files_of(part(part(message, 6), 1)) if 6 in numbers else None
        self.remote = None
        if 7 in numbers:
            remote = part(message, 7)
            self.remote = (field(remote, 1), field(remote, 2, 0), text(field(remote, 3)))


def status_file(capabilities):
    """An AgentToServer with a description, capabilities and health."""
    service = block(1, block(1, b"service.name") + block(2, block(1, b"bench")))
    return block(3, service) + number(4, capabilities) + block(5, number(1, 1))


def folder_files(folder, area):
    """The files of an area of the agent's folder; names that begin with a dot are none of the agent's."""
    path = os.path.join(folder, "opamp.d", area)
    names = os.listdir(path) if os.path.isdir(path) else []
    files = {}
    for name in names:
        if not name.startswith("."):
            with open(os.path.join(path, name), "rb") as file:
                files[name] = file.read()
    return files


# RFC 6455
def ws_accept(key):
    return base64.b64encode(hashlib.sha1(key + b"258EAFA5-E914-47DA-95CA-C5AB0DC85B11").digest())


def ws_frame(opcode, payload, final=True):
    """A frame as a server sends it, without a mask."""
    size = len(payload)
    head = bytes([(128 if final else 0) | opcode])
    head += bytes([size]) if size < 126 else bytes([126]) + struct.pack(">H", size) if size < 65536 else bytes([127]) + struct.pack(">Q", size)
    return head + payload


def exactly(stream, size):
    came = stream.read(size)
    if came is None or len(came) < size:
        raise ConnectionError("the connection ended")
    return came


def take_frame(stream):
    """The next frame: its bytes as they came, its opcode and its payload without the mask."""
    raw = head = exactly(stream, 2)
    size = head[1] & 127
    if size > 125:
        more = exactly(stream, 2 if size == 126 else 8)
        raw += more
        size, = struct.unpack(">H" if size == 126 else ">Q", more)
    mask = b""
    if head[1] & 128:
        mask = exactly(stream, 4)
        raw += mask
    payload = exactly(stream, size)
    raw += payload
    if mask:
        payload = bytes(byte ^ mask[at % 4] for at, byte in enumerate(payload))
    return raw, head[0] & 15, payload


def take_head(stream):
    """The first line and the headers of a request or a response, with names in lower case, and the bytes as they came."""
    first = stream.readline(65537)
    raw, headers = first, {}
    while True:
        line = stream.readline(65537)
        raw += line
        if line in (b"\r\n", b"\n", b""):
            break
        name, _, value = line.partition(b":")
        headers[name.strip().lower()] = value.strip()
    if not first or not raw.endswith(b"\n"):
        raise ConnectionError("the connection ended")
    return first, headers, raw


def listener():
    """A socket that listens at a port of its own."""
    made = socket.socket()
    made.setsockopt(socket.SOL_SOCKET, socket.SO_REUSEADDR, 1)
    made.bind(("127.0.0.1", 0))
    made.listen(64)
    return made


def free_ports(count):
    """Ports at which nobody listens."""
    made = [listener() for _ in range(count)]
    ports = [each.getsockname()[1] for each in made]
    for each in made:
        each.close()
    return ports


def connected(port, seconds):
    """A connection to the port, as soon as somebody listens there."""
    end = time.monotonic() + seconds
    while True:
        try:
            return socket.create_connection(("127.0.0.1", port), timeout=30)
        except OSError:
            if time.monotonic() > end:
                raise
            time.sleep(0.05)


# RFC 9112
def post(body, length=None):
    """A request with a report. Where a length is told, the front of one whose body has so many bytes."""
    length = len(body) if length is None else length
    return b"POST /v1/opamp HTTP/1.1\r\nHost: h\r\nContent-Type: application/x-protobuf\r\nContent-Length: %d\r\n\r\n%b" % (length, body)


def take_answers(connection, count):
    """The bodies of so many answers, each of a length that it tells."""
    held, bodies = b"", []
    while len(bodies) < count:
        head, between, rest = held.partition(b"\r\n\r\n")
        if between:
            if not head.startswith(b"HTTP/1.1 200"):
                raise ConnectionError(head.decode(errors="replace"))
            length = int(re.search(rb"Content-Length: (\d+)", head)[1])
            if len(rest) >= length:
                bodies.append(rest[:length])
                held = rest[length:]
                continue
        piece = connection.recv(65536)
        if not piece:
            raise ConnectionError("the connection ended")
        held += piece
    return bodies


class Operator:
    """An operator's connection to `serve`."""

    def __init__(self, port):
        self.socket = connected(port, 60)
        self.came = self.socket.makefile("rb")

    def say(self, line):
        self.socket.sendall(line.encode() + b"\n")
        return self.came.readline().decode().rstrip("\n")

    def ask(self, line):
        """The lines of an answer before its `end`, or the one line of a refusal."""
        lines, came = [], self.say(line)
        while came not in ("end", ""):
            lines.append(came)
            came = "end" if came.startswith("refused: ") else self.came.readline().decode().rstrip("\n")
        if not came:
            raise ConnectionError("the connection ended")
        return lines


class Running:
    """A program that runs in a folder of its own, and is never left behind."""

    def __init__(self, words, folder):
        self.process = subprocess.Popen(words, cwd=folder, stdin=subprocess.DEVNULL, stdout=subprocess.PIPE, stderr=subprocess.PIPE)

    def ended(self):
        """How it ended, if it did."""
        return self.process.poll()

    def kill(self):
        """SIGKILL, unless it has ended by itself; then its status."""
        if self.process.poll() is None:
            self.process.send_signal(signal.SIGKILL)
        return self.process.wait(30)

    def wait(self, seconds):
        """Its status, and what it wrote; its notes are left aside."""
        out, _ = self.process.communicate(timeout=seconds)
        return self.process.returncode, out.decode(errors="replace")


class Serving(Running):
    """The command `serve` at ports of its own, and what the system tells of its process."""

    def __init__(self, program, *options):
        self.http, self.ws, self.operator = free_ports(3)
        addresses = [word for name in ("http", "ws", "operator") for word in (f"--{name}", f"127.0.0.1:{getattr(self, name)}")]
        super().__init__([program, "serve", *addresses, *options], ".")
        connected(self.operator, 60).close()

    def seconds(self):
        """The processor time that it took so far."""
        with open(f"/proc/{self.process.pid}/stat") as stat:
            after_name = stat.read().rsplit(")", 1)[1].split()
        return (int(after_name[11]) + int(after_name[12])) / os.sysconf("SC_CLK_TCK")

    def kilobytes(self, name="VmRSS"):
        """Its resident memory; by the name VmHWM the largest so far."""
        with open(f"/proc/{self.process.pid}/status") as status:
            return int(re.search(rf"{name}:\s*(\d+)", status.read())[1])

    def stop(self):
        """Its status and what it wrote, behind an operator's `stop`."""
        Operator(self.operator).say("stop")
        return self.wait(60)


def machine():
    """The processor, how many there are, and how much they have to do."""
    with open("/proc/cpuinfo") as told, open("/proc/loadavg") as load:
        model = re.search(r"model name\s*: (.*)", told.read())
        return f"{model[1] if model else 'unknown processor'}, {os.cpu_count()} processors, load {load.read().split()[0]}"


def built(program):
    """The path of the program; where none is told, of the one that ./opamp proves and builds."""
    if program is not None:
        return os.path.abspath(program)
    top = os.path.dirname(os.path.dirname(os.path.abspath(__file__)))
    # Over no input it answers nothing.
    subprocess.run([os.path.join(top, "opamp"), "answer"], stdin=subprocess.DEVNULL, stdout=subprocess.DEVNULL, check=True)
    return os.path.join(top, "crates", "opamp_cli", "out", "opamp_cli")
