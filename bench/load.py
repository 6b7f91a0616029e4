"""Writes framed OpAMP reports to standard output: load.py FORM COUNT AGENTS [CARRIER].

FORM small: a description in each agent's first report, then health alone. FORM falling: the same, with identifiers in falling order, so that each
new agent comes before those that are held. FORM collector: every report whole, with six attributes, 40
components and one configuration file of 30,000 bytes. FORM varied: as collector, but the file has 10,000 to 40,000 bytes. FORM wide: the largest
message, whose one attribute is an array of about 2,100,000 values that are absent. FORM deep: the same with 48 arrays in one another, on nearly 100
levels, the innermost of which has the values.

Without a CARRIER a frame is a report. CARRIER messages: a frame is a message of WebSocket, with its header. CARRIER posts: a frame is a piece of a
connection of HTTP, at most 16,384 bytes of a request that posts a report, as the sockets of `serve` give them.
"""

import struct
import sys


def varint(n):
    out = bytearray()
    while n > 127:
        out.append(n & 127 | 128)
        n >>= 7
    out.append(n)
    return bytes(out)


def number(field, n):
    return varint(field * 8) + varint(n)


def fixed(field, n):
    return varint(field * 8 + 1) + struct.pack("<Q", n)


def sized(field, body):
    return varint(field * 8 + 2) + varint(len(body)) + body


def attribute(key, value):
    return sized(1, key) + sized(2, sized(1, value))


def small(agent, n):
    description = b""
    if n == 1:
        description = sized(3, sized(1, attribute(b"service.name", b"collector-%d" % agent)))
    return sized(1, agent.to_bytes(16, "big")) + number(2, n) + description + number(4, 0x801) + sized(5, number(1, 1))


def falling(agent, n):
    return small(2**32 - agent, n)


def whole(agent, n, lines):
    identifying = [
        (b"service.name", b"otelcol"),
        (b"service.version", b"0.98.0"),
        (b"service.instance.id", b"%032d" % agent),
    ]
    others = [(b"os.type", b"linux"), (b"host.name", b"node-%d" % agent), (b"host.arch", b"amd64")]
    description = b"".join(sized(1, attribute(k, v)) for k, v in identifying)
    description += b"".join(sized(2, attribute(k, v)) for k, v in others)
    time = 1700000000000000000 + n
    part = number(1, 1) + sized(4, b"StatusOK") + fixed(5, time)
    components = (sized(6, sized(1, b"pipeline:traces/%02d" % k) + sized(2, part)) for k in range(40))
    health = number(1, 1) + fixed(2, time) + b"".join(components)
    file = sized(1, b"receivers:\n  otlp:\n" * lines) + sized(2, b"text/yaml")
    return b"".join(
        (
            sized(1, agent.to_bytes(16, "big")),
            number(2, n),
            sized(3, description),
            number(4, 0x1C07),
            sized(5, health),
            sized(6, sized(1, sized(1, sized(2, file)))),
            sized(7, sized(1, b"h" * 32) + number(2, 1)),
        )
    )


def collector(agent, n):
    return whole(agent, n, 1579)


def varied(agent, n):
    return whole(agent, n, 526 + agent * 7919 % 1580)


def arrays(depth):
    array = b"\x0a\x00" * ((4194304 - 16 * depth - 40) // 2)
    for _ in range(depth - 1):
        array = sized(1, sized(5, array))
    return sized(3, sized(1, sized(2, sized(5, array))))


def wide(agent, n):
    return arrays(1)


def deep(agent, n):
    return arrays(48)


def message(report):
    return [b"\x00" + report]


def post(report):
    head = b"POST /v1/opamp HTTP/1.1\r\nHost: 127.0.0.1:4320\r\nContent-Type: application/x-protobuf\r\nContent-Length: %d\r\n\r\n" % len(report)
    request = head + report
    return [request[at : at + 16384] for at in range(0, len(request), 16384)]


CARRIERS = {"reports": lambda report: [report], "messages": message, "posts": post}
FORMS = {"small": small, "falling": falling, "collector": collector, "varied": varied, "wide": wide, "deep": deep}


def main():
    form, count, agents = FORMS[sys.argv[1]], int(sys.argv[2]), int(sys.argv[3])
    carrier = CARRIERS[sys.argv[4] if len(sys.argv) > 4 else "reports"]
    for i in range(count):
        for frame in carrier(form(i % agents, i // agents + 1)):
            sys.stdout.buffer.write(struct.pack(">I", len(frame)) + frame)


main()
