#!/usr/bin/env python3
"""Writes the file by which `opamp agent` is told its state, over Python's standard library alone.

    python3 examples/status.py --name my-agent --attribute deployment=test
    python3 examples/status.py --name my-agent --error "disk full"
    python3 examples/status.py --name my-agent --file collector.yaml=/etc/collector.yaml

The file is `opamp.d/status/status.pb` below the folder that the agent runs in (`--folder`, else the current one). It is one
AgentToServer message (OpAMP specification, "AgentToServer Message"), of which the agent takes the description, the
capabilities, the health, the effective configuration and the components. The agent reads it before each report, so write it
anew when something changes: the next report tells it. It is made beside the former file and takes its name as a whole.
"""
import argparse
import os
import socket
import time

# OpAMP specification, AgentCapabilities
CAPABILITIES = {
    "reports-status": 0x1,
    "accepts-config": 0x2,
    "reports-effective-config": 0x4,
    "accepts-packages": 0x8,
    "reports-packages": 0x10,
    "accepts-connection": 0x100,
    "accepts-restart": 0x400,
    "reports-health": 0x800,
    "reports-config": 0x1000,
}


# Protocol Buffers encoding guide: a message is a row of fields, each a tag and a value; an absent field is its default.
def varint(value):
    out = bytearray()
    while value > 127:
        out.append(value & 127 | 128)
        value >>= 7
    return bytes(out + bytes([value]))


def number(field, value):
    return varint(field << 3) + varint(value) if value else b""


def fixed64(field, value):
    return varint(field << 3 | 1) + value.to_bytes(8, "little") if value else b""


def block(field, content):
    return varint(field << 3 | 2) + varint(len(content)) + content


def text(field, value):
    return block(field, value.encode()) if value else b""


def attribute(field, key, value):
    """A KeyValue: 1 key, 2 value, an AnyValue with 1 string_value."""
    return block(field, block(1, key.encode()) + block(2, block(1, value.encode())))


def description(name, attributes):
    """AgentDescription: 1 what identifies the agent, 2 what else is said of it."""
    others = {"host.name": socket.gethostname(), **attributes}
    return attribute(1, "service.name", name) + b"".join(attribute(2, key, value) for key, value in sorted(others.items()))


def health(error, started):
    """ComponentHealth: 1 healthy, 2 and 5 times in nanoseconds since 1970, 3 last_error, 4 status."""
    told = number(1, not error) + fixed64(2, started) + text(3, error) + text(4, "degraded" if error else "running")
    return told + fixed64(5, time.time_ns())


def effective(files):
    """EffectiveConfig: 1 config_map, an AgentConfigMap with 1, a map from names to AgentConfigFile (1 body, 2 content_type)."""
    return block(1, b"".join(block(1, text(1, name) + block(2, block(1, body))) for name, body in sorted(files.items())))


def message(told):
    """AgentToServer: 3 agent_description, 4 capabilities, 5 health, 6 effective_config."""
    files = {name: open(path, "rb").read() for name, path in told.file}
    out = block(3, description(told.name, dict(told.attribute)))
    out += number(4, sum(CAPABILITIES[name] for name in told.capability or CAPABILITIES))
    out += block(5, health(told.error, told.started))
    return out + block(6, effective(files)) if files else out


def write(folder, content):
    area = os.path.join(folder, "opamp.d", "status")
    os.makedirs(area, exist_ok=True)
    new, path = os.path.join(area, ".status.pb"), os.path.join(area, "status.pb")
    with open(new, "wb") as out:
        out.write(content)
        out.flush()
        os.fsync(out.fileno())
    os.replace(new, path)
    return path


def pair(word):
    key, between, value = word.partition("=")
    if not key or not between:
        raise argparse.ArgumentTypeError(f"{word} isn't KEY=VALUE")
    return key, value


def main():
    words = argparse.ArgumentParser(description=__doc__.splitlines()[0])
    words.add_argument("--folder", default=".", help="the folder that the agent runs in")
    words.add_argument("--name", default="agent", help="the attribute service.name, which identifies the agent")
    words.add_argument("--attribute", type=pair, action="append", default=[], metavar="KEY=VALUE", help="what else is said of the agent")
    words.add_argument("--error", default="", help="what is wrong; without it the agent is healthy")
    words.add_argument("--started", type=int, default=0, metavar="NANOS", help="when the agent began, in nanoseconds since 1970")
    words.add_argument("--file", type=pair, action="append", default=[], metavar="NAME=PATH",
                       help="a file of the configuration that is in effect; without one it is the one that the agent applied last")
    words.add_argument("--capability", action="append", choices=CAPABILITIES, help="what the agent does and takes; without one all of these")
    told = words.parse_args()
    print(write(told.folder, message(told)))


if __name__ == "__main__":
    main()
