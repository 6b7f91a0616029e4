#!/usr/bin/env python3
"""A small OpAMP agent over Python's standard library alone: read from it how to talk to the server.

    python3 examples/python_agent.py http://127.0.0.1:4321 --reports 5
    python3 examples/python_agent.py ws://127.0.0.1:4320 --reports 5
    python3 examples/python_agent.py wss://localhost:4443 --authority server.crt --reports 5
    python3 examples/python_agent.py ws://127.0.0.1:4320 --healthy --folder agent --push --pause 30

It reports over HTTP or over WebSocket, by TLS where a proxy before the server ends it. The first report is whole; a later one leaves out what hasn't changed, and is whole
again where the server asks for the full state, as it does once it has lost what it knew. Every second report its health
changes, unless it is told to be healthy. Where the connection is lost, or the server has no memory or no room (503, an error),
it waits, as long as the server says, connects again and reports everything. It takes a new identifier that the server gives it,
ends at an order to restart, and says goodbye (agent_disconnect) where SIGTERM or Ctrl-C ends it. What was sent and what came back
is printed, a line each.

With a folder it takes configurations: it writes the files of an offered one there and says in its next report that it applied
it, or why it failed. It may be told to fail each. With --push it listens between its reports: what comes unasked is heard at
once, an offer in it is taken, and the next report follows at once. A message that comes right before a report is passed over,
since nothing tells it from the report's reply; what it offers comes again with that.
"""
import argparse
import base64
import http.client
import os
import re
import select
import signal
import socket
import ssl
import struct
import sys
import time
import urllib.parse
import uuid

# OpAMP specification, AgentCapabilities
REPORTS_STATUS, ACCEPTS_REMOTE_CONFIG, REPORTS_HEALTH, REPORTS_REMOTE_CONFIG = 0x1, 0x2, 0x800, 0x1000
REPORT_FULL_STATE = 0x1  # ServerToAgentFlags
APPLIED, FAILED = 1, 3   # RemoteConfigStatuses
RETRY = 30.0             # seconds to wait behind an error that names no time
UNASKED_AT_ONCE = 64     # more messages that nobody asked for end the connection
IDENTIFIER = "OpAMP-Instance-UID"  # the header by which a balancer can hold the agent to a server


# Protocol Buffers encoding guide: a message is a row of fields, each a tag and a value.
def varint(value):
    out = bytearray()
    while value > 127:
        out.append(value & 127 | 128)
        value >>= 7
    return bytes(out + bytes([value]))


def number(field, value):
    return varint(field << 3) + varint(value) if value else b""


def block(field, content):
    return varint(field << 3 | 2) + varint(len(content)) + content


def fields(message):
    """The fields of a message: their numbers, with an integer or bytes each."""
    at = 0

    def take_varint():
        nonlocal at
        value = shift = 0
        while True:
            byte = message[at]
            at += 1
            value |= (byte & 127) << shift
            shift += 7
            if byte < 128:
                return value

    while at < len(message):
        tag = take_varint()
        if tag & 7 == 0:
            yield tag >> 3, take_varint()
        elif tag & 7 == 2:
            size = take_varint()
            yield tag >> 3, message[at:at + size]
            at += size
        else:
            size = {1: 8, 5: 4}[tag & 7]
            yield tag >> 3, message[at:at + size]
            at += size


def attribute(key, value):
    return block(1, block(1, key.encode()) + block(2, block(1, value.encode())))


def files_of(config):
    """The files of an AgentConfigMap (1 a map from names to AgentConfigFile, whose 1 is the body): bodies by names."""
    entries = [dict(fields(entry)) for found, entry in fields(config) if found == 1]
    return {entry.get(1, b"").decode(): dict(fields(entry.get(2, b""))).get(1, b"") for entry in entries}


def write_files(folder, files):
    """Writes each file as a whole, so that a reader finds the former one or the new one. The cause of a failure, or none."""
    named = {name or ("config" if len(files) == 1 else ""): body for name, body in files.items()}
    if not all(re.fullmatch(r"[A-Za-z0-9_-][A-Za-z0-9._-]{0,254}", name) for name in named):
        return "bad name"
    try:
        os.makedirs(folder, exist_ok=True)
        for name, body in named.items():
            new = os.path.join(folder, ".new")
            with open(new, "wb") as file:
                file.write(body)
            os.replace(new, os.path.join(folder, name))
    except OSError as why:
        return f"folder fault: {why.strerror}"
    return ""


class Restart(Exception):
    """The server ordered the agent to restart."""


class Ended(Exception):
    """The system ends the agent."""


class NoAnswer(OSError):
    """The server answered without taking the report."""


class Agent:
    """What the agent is, and what of it the server has been told."""

    def __init__(self, told):
        self.uid = told.uid
        self.name, self.healthy, self.folder, self.fail = told.name, told.healthy, told.folder, told.fail
        self.takes_config = bool(told.folder or told.fail)
        self.config_hash = self.config_status = b""
        self.sequence_num = 0
        self.told = {}

    def state(self, step):
        """AgentToServer's fields that may be left out: agent_description (3), health (5) and remote_config_status (7)."""
        healthy = self.healthy or step % 4 < 2
        told = {
            3: attribute("service.name", self.name) + attribute("host.name", socket.gethostname()),
            5: number(1, 1) if healthy else block(3, b"out of luck"),
        }
        return {**told, 7: self.config_status} if self.takes_config else told

    def forget(self):
        """Behind a loss or an error nobody knows what the server took: the next report is whole."""
        self.told = {}

    def goodbye(self):
        """The last report: it says that the agent goes (agent_disconnect, 9)."""
        self.sequence_num += 1
        capabilities = REPORTS_STATUS | REPORTS_HEALTH | (ACCEPTS_REMOTE_CONFIG | REPORTS_REMOTE_CONFIG if self.takes_config else 0)
        return block(1, self.uid) + number(2, self.sequence_num) + number(4, capabilities) + block(9, b"")

    def report(self, step):
        """The next report: whole where nothing is told yet, else what has changed."""
        self.sequence_num += 1
        state = self.state(step)
        capabilities = REPORTS_STATUS | REPORTS_HEALTH
        if self.takes_config:
            capabilities |= ACCEPTS_REMOTE_CONFIG | REPORTS_REMOTE_CONFIG
        left_out = [field for field in state if self.told.get(field) == state[field]]
        body = block(1, self.uid) + number(2, self.sequence_num)
        for field in sorted([*state, 4]):
            if field == 4:
                body += number(4, capabilities)
            elif field not in left_out:
                body += block(field, state[field])
        self.told = state
        return body, "whole" if not left_out else "delta"

    def hear(self, reply):
        """Reads a ServerToAgent, and takes a configuration that it offers. What became of the report, and how many seconds the server
        wants to be left alone (ServerErrorResponse: 3 retry_info, whose 1 is retry_after_nanoseconds)."""
        seen = dict(fields(reply))
        if seen.get(1, self.uid) != self.uid:
            return "not for this agent", 0.0
        for name, field in [("error", 2), ("configuration", 3), ("connections", 4), ("packages", 5), ("command", 9)]:
            if field in seen:
                print(f"  {name} {seen[field].hex()}")
        if 9 in seen:
            # ServerToAgentCommand: 1 type, of which 0 is Restart; all else in the reply doesn't count
            if dict(fields(seen[9])).get(1, 0) == 0:
                raise Restart
            return "taken", 0.0
        if 2 in seen:
            self.forget()
            retry = dict(fields(dict(fields(seen[2])).get(3, b""))).get(1)
            return "not taken", RETRY if retry is None else retry / 1e9
        if 3 in seen and self.takes_config:
            self.take_config(dict(fields(seen[3])))
        fresh = dict(fields(seen.get(8, b""))).get(1, b"")
        if len(fresh) == 16:
            print(f"  new identifier {fresh.hex()}")
            self.uid = fresh
            self.forget()
        if seen.get(6, 0) & REPORT_FULL_STATE:
            self.forget()
            return "full state asked for", 0.0
        return "taken", 0.0

    def take_config(self, offer):
        """Takes an AgentRemoteConfig (1 config, 2 config_hash), unless it is the one that was taken last."""
        config_hash = offer.get(2, b"")
        if config_hash and config_hash == self.config_hash:
            return
        files = files_of(offer.get(1, b""))
        failure = self.fail or write_files(self.folder, files)
        # RemoteConfigStatus: 1 last_remote_config_hash, 2 status, 3 error_message
        self.config_status = block(1, config_hash) + number(2, FAILED if failure else APPLIED)
        if failure:
            self.config_status += block(3, failure.encode())
        self.config_hash = config_hash
        print(f"  failed: {failure}" if failure else f"  applied {' '.join(files)}")


class Http:
    """OpAMP specification, "Plain HTTP Transport": a report is the body of a POST, the reply that of its answer."""

    def __init__(self, host, port, uid, tls=None):
        self.uid = uid
        self.connection = http.client.HTTPSConnection(host, port, timeout=30, context=tls) if tls else http.client.HTTPConnection(host, port, timeout=30)

    def exchange(self, report):
        self.connection.request("POST", "/v1/opamp", report, {"Content-Type": "application/x-protobuf", IDENTIFIER: str(uuid.UUID(bytes=self.uid))})
        answer = self.connection.getresponse()
        body = answer.read()
        if answer.status != 200:
            # 503 says that there is no memory or no place for now; what another status says of a report doesn't change by itself
            raise NoAnswer(f"status {answer.status}")
        return body

    def arrived(self, seconds):
        """Over HTTP nothing comes unasked."""
        time.sleep(seconds)


class WebSocket:
    """OpAMP specification, "WebSocket Transport": each message is a binary message behind a header of one byte, 0."""

    def __init__(self, host, port, uid, tls=None):
        self.uid = uid
        self.stream = socket.create_connection((host, port), timeout=30)
        if tls:
            self.stream = tls.wrap_socket(self.stream, server_hostname=host)
        key = base64.b64encode(os.urandom(16)).decode()
        self.stream.sendall((f"GET /v1/opamp HTTP/1.1\r\nHost: {host}:{port}\r\nUpgrade: websocket\r\nConnection: Upgrade\r\n"
                             f"Sec-WebSocket-Key: {key}\r\nSec-WebSocket-Version: 13\r\n{IDENTIFIER}: {uuid.UUID(bytes=uid)}\r\n\r\n").encode())
        # Without a buffer of its own, so that what has come and isn't read stands in the socket, where `select` sees it.
        self.came = self.stream.makefile("rb", buffering=0)
        told = self.came.readline().decode("latin-1").split()[1:2] or ["none"]
        if told[0].startswith("5") or told == ["none"]:
            # A balancer says so whose servers are all away, and one that just ended says nothing.
            raise NoAnswer(f"status {told[0]} in place of a WebSocket")
        if told != ["101"]:
            raise SystemExit(f"no WebSocket there: status {told[0]}")
        while self.came.readline() not in (b"\r\n", b""):
            pass

    def send(self, opcode, payload):
        # RFC 6455, 5.2: a client masks what it sends
        size = len(payload)
        head = bytes([128 | opcode])
        head += bytes([128 | size]) if size < 126 else bytes([254]) + struct.pack(">H", size) if size < 65536 else bytes([255]) + struct.pack(">Q", size)
        mask = os.urandom(4)
        self.stream.sendall(head + mask + bytes(byte ^ mask[at % 4] for at, byte in enumerate(payload)))

    def read(self, size):
        held = b""
        while len(held) < size:
            piece = self.came.read(size - len(held))
            if not piece:
                raise ConnectionError("the server ended the connection")
            held += piece
        return held

    def receive(self):
        """The message of the next frame, or None where the frame has none. A ping is answered."""
        first, size = self.read(2)
        if size == 126:
            size, = struct.unpack(">H", self.read(2))
        elif size == 127:
            size, = struct.unpack(">Q", self.read(8))
        opcode, payload = first & 15, self.read(size)
        if opcode == 9:
            self.send(10, payload)
        elif opcode == 8:
            raise ConnectionError("the server closed the connection")
        return payload.removeprefix(b"\0") if opcode == 2 else None

    def has_come(self, seconds):
        """Whether something can be read within so many seconds. What TLS has taken from the socket and not given yet stands in its own buffer."""
        is_held = isinstance(self.stream, ssl.SSLSocket) and self.stream.pending() > 0
        return is_held or bool(select.select([self.stream], [], [], seconds)[0])

    def arrived(self, seconds):
        """A message that comes unasked within so many seconds, or None."""
        end = time.monotonic() + seconds
        for _ in range(UNASKED_AT_ONCE):
            if not self.has_come(max(0, end - time.monotonic())):
                return None
            message = self.receive()
            if message is not None:
                return message
        raise ConnectionError("too much came unasked")

    def exchange(self, report):
        for _ in range(UNASKED_AT_ONCE):
            if self.arrived(0) is None:
                break
        else:
            raise ConnectionError("too much came unasked")
        self.send(2, b"\0" + report)
        while (message := self.receive()) is None:
            pass
        return message


def run(agent, told):
    """Sends as many reports as are told, and between two of them waits, or listens."""
    server = urllib.parse.urlsplit(told.server)
    connect = {"http": Http, "https": Http, "ws": WebSocket, "wss": WebSocket}[server.scheme]
    tls = ssl.create_default_context(cafile=told.authority) if server.scheme in ("https", "wss") else None
    transport = None
    try:
        for step in range(told.reports):
            report, form = agent.report(step)
            print(f"sent {agent.sequence_num} {form} {report.hex()}")
            try:
                if transport and transport.uid != agent.uid:
                    transport = None
                transport = transport or connect(server.hostname, server.port, agent.uid, tls)
                reply = transport.exchange(report)
                became, retry = agent.hear(reply)
                print(f"  {became} {reply.hex()}")
                if retry > told.pause or not told.push:
                    time.sleep(max(retry, told.pause))
                elif (unasked := transport.arrived(told.pause)) is not None:
                    print(f"  unasked {unasked.hex()}")
                    agent.hear(unasked)
            except (OSError, http.client.HTTPException) as why:
                print(f"  lost: {why}")
                transport = None
                agent.forget()
                time.sleep(told.pause)
    except Restart:
        print("restart")
    except (Ended, KeyboardInterrupt):
        try:
            if transport:
                transport.exchange(agent.goodbye())
            print("goodbye")
        except (OSError, http.client.HTTPException) as why:
            print(f"  lost: {why}")


def uid_of(word):
    uid = bytes.fromhex(word)
    if len(uid) != 16:
        raise ValueError
    return uid


def end(number, frame):
    raise Ended


def main():
    words = argparse.ArgumentParser(description=__doc__.splitlines()[0])
    words.add_argument("server", help="http://HOST:PORT, https://.., ws://.. or wss://..")
    words.add_argument("--authority", metavar="FILE", help="the certificate that the server's rests on, where the system doesn't know it")
    words.add_argument("--reports", type=int, default=5, help="how many reports are sent")
    words.add_argument("--pause", type=float, default=1.0, help="seconds between reports")
    words.add_argument("--uid", type=uid_of, default=os.urandom(16), metavar="HEX", help="the identifier, 16 bytes; without it a fresh one")
    words.add_argument("--name", default="python-agent", help="the attribute service.name")
    words.add_argument("--healthy", action="store_true", help="its health doesn't change")
    words.add_argument("--folder", help="where the files of offered configurations are written; with none it takes no configurations")
    words.add_argument("--fail", metavar="TEXT", help="each offered configuration fails, for this cause")
    words.add_argument("--push", action="store_true", help="over WebSocket, what comes unasked between two reports is heard at once")
    told = words.parse_args()
    sys.stdout.reconfigure(line_buffering=True)
    signal.signal(signal.SIGTERM, end)
    print("uid", told.uid.hex())
    run(Agent(told), told)


if __name__ == "__main__":
    main()
