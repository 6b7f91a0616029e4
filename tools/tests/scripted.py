"""A server of operators' lines that answers by a table, and the worked examples of docs/PROTOCOL.md and README.md."""
import contextlib
import io
import os
import socket
import sys
import threading
import unittest

sys.path.insert(0, os.path.dirname(os.path.dirname(os.path.abspath(__file__))))

from gisavelom_operator.main import main

UID = "00010203-0405-0607-0809-0a0b0c0d0e0f"
OTHER = "00010203-ffff-0607-0809-0a0b0c0d0e0f"
LEFT = "902044dd-8230-42d7-8b26-7ca466a4d3cb"

# README.md, the tour of `serve`
LISTED = f"{UID} 1 here healthy\nend\n"
SHOWN = """instance_uid = hex 000102030405060708090a0b0c0d0e0f
sequence_num = 1
agent_description = {}
capabilities = 2049
health.healthy = true
custom_capabilities = {}
end
"""
CONFIG = f"config {UID} agent.yaml text/yaml 6b3a2076"
# AgentRemoteConfig in canonical form, by hand: the map's one entry has the key agent.yaml and a file of the body `k: v` and
# the type text/yaml.
CONFIG_MESSAGE = bytes.fromhex("0a21 0a1f 0a0a 6167656e742e79616d6c 1211 0a04 6b3a2076 1209 746578742f79616d6c")

# docs/COMMANDS.md, "Readable text", of an agent that tells more
TELLING = """instance_uid = hex 000102030405060708090a0b0c0d0e0f
sequence_num = 7
agent_description.identifying_attributes[0].key = "service.name"
agent_description.identifying_attributes[0].value.string_value = "collector"
agent_description.identifying_attributes[1].key = "service.version"
agent_description.identifying_attributes[1].value.string_value = "0.98.0"
agent_description.non_identifying_attributes[0].key = "deployment"
agent_description.non_identifying_attributes[0].value.string_value = "test"
agent_description.non_identifying_attributes[1].key = "ports"
agent_description.non_identifying_attributes[1].value.array_value.values[0].int_value = -1
agent_description.non_identifying_attributes[1].value.array_value.values[1].bool_value = false
capabilities = 7455
health.healthy = true
health.start_time_unix_nano = 1700000000000000000
health.status = "running"
health.component_health_map["pipeline"] = {}
health.component_health_map["pipeline x"].healthy = true
effective_config.config_map.config_map["agent.yaml"].body = hex 6b3a2076
effective_config.config_map.config_map["agent.yaml"].content_type = "text/yaml"
remote_config_status.last_remote_config_hash = hex %s
remote_config_status.status = %d
%spackage_statuses.packages["tool"].name = "tool"
package_statuses.packages["tool"].agent_has_version = "1.2"
package_statuses.packages["tool"].server_offered_version = "1.3"
package_statuses.packages["tool"].status = 3
package_statuses.packages["tool"].error_message = "fetch fault"
custom_capabilities.capabilities[0] = "com.example.echo"
end
"""


def telling(config_hash="abcd", status=1, error=""):
    return TELLING % (config_hash, status, f'remote_config_status.error_message = "{error}"\n' if error else "")


# docs/PROTOCOL.md, "Operator lines": what `ages` and `count` tell
AGES = f"{UID} 42 open\n{OTHER} 430 closed\n{LEFT} 11000 http\nend\n"
COUNT = "agents 3\nhere 2\nhealthy 1\nunhealthy 1\nconnections 4\nreports 18446744073709551615\norders 2\nrollouts 1\nend\n"

UNKNOWN = "refused: unknown agent\n"
WORDS = "refused: words\n"


class ScriptedServer:
    """Answers each line by a table. Of several answers each is given once, and the last one stays; None ends the connection.

    A line that isn't in the table is answered `refused: words`, and what came is kept in `lines`.
    """

    def __init__(self, answers):
        self.answers = {line: list(answer) if isinstance(answer, list) else [answer] for line, answer in answers.items()}
        self.lines = []
        self.connections = 0
        self._socket = socket.create_server(("127.0.0.1", 0))
        self.port = self._socket.getsockname()[1]
        self.name = f"127.0.0.1:{self.port}"
        self._open = []
        threading.Thread(target=self._take, daemon=True).start()

    def close(self):
        # A thread that waits in accept, or for a line, holds its socket until it is woken.
        for held in (self._socket, *self._open):
            with contextlib.suppress(OSError):
                held.shutdown(socket.SHUT_RDWR)
            held.close()

    def _take(self):
        while True:
            try:
                connection, _ = self._socket.accept()
            except OSError:
                return
            self.connections += 1
            self._open.append(connection)
            threading.Thread(target=self._serve, args=(connection,), daemon=True).start()

    def _serve(self, connection):
        try:
            with connection, connection.makefile("rb") as came:
                for line in came:
                    answer = self.answer(line.decode().rstrip("\n"))
                    if answer is None:
                        connection.shutdown(socket.SHUT_RDWR)
                        return
                    connection.sendall(answer.encode())
        except OSError:
            pass

    def answer(self, line):
        self.lines.append(line)
        answers = self.answers.get(line, [WORDS])
        return answers.pop(0) if len(answers) > 1 else answers[0]


class Terminal(io.StringIO):
    """An operator who answers."""

    def isatty(self):
        return True


class WithServers(unittest.TestCase):
    """Servers that end with the test, and the program run in this process."""

    def server(self, answers):
        server = ScriptedServer(answers)
        self.addCleanup(server.close)
        return server

    def nobody(self):
        """An address at which nobody listens."""
        with socket.create_server(("127.0.0.1", 0)) as made:
            return f"127.0.0.1:{made.getsockname()[1]}"

    def run_operator(self, servers, *words, says=None):
        """The exit status, what was written, and what was told on standard error; on a terminal where the operator says something."""
        out, err = io.StringIO(), io.StringIO()
        front = [word for server in servers for word in ("--server", getattr(server, "name", server))]
        status = main([*front, *words], out, err, io.StringIO() if says is None else Terminal(says))
        return status, out.getvalue(), err.getvalue()
