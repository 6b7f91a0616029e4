"""A member of etcd that is played: range, transactions that put and delete where comparisons hold, and a watch, as the JSON gateway has them."""
import base64
import json
import threading
from http.server import BaseHTTPRequestHandler, ThreadingHTTPServer


def encoded(value):
    return base64.b64encode(value).decode()


class PlayedStore:
    """What all members hold."""

    def __init__(self):
        self.changed = threading.Condition()
        self.revision = 1
        self.keys = {}     # values and revisions
        self.before = None  # is called once before the next transaction is looked at

    def put(self, **values):
        with self.changed:
            self.revision += 1
            for key, value in values.items():
                self.keys[f"w/{key}".encode()] = value, self.revision
            self.changed.notify_all()

    def delete(self, key):
        with self.changed:
            self.revision += 1
            del self.keys[f"w/{key}".encode()]
            self.changed.notify_all()

    def values(self):
        return {key.decode(): value for key, (value, _) in self.keys.items()}

    def found(self, asked):
        first = base64.b64decode(asked["key"])
        behind = base64.b64decode(asked["range_end"]) if "range_end" in asked else first + b"\0"
        return {key: held for key, held in sorted(self.keys.items()) if first <= key < behind}

    def range(self, asked):
        with self.changed:
            kvs = [{"key": encoded(key), "mod_revision": str(revision), **({} if asked.get("keys_only") else {"value": encoded(value)})}
                   for key, (value, revision) in self.found(asked).items()]
            return {"header": {"revision": str(self.revision)}, **({"kvs": kvs, "count": str(len(kvs))} if kvs else {})}

    def holds(self, compare):
        """A comparison of the revisions of a key, or of a range: of one that isn't there the revision is 0."""
        assert compare["target"] == "MOD"
        revisions = [revision for _, revision in self.found(compare).values()] or [0]
        wanted = int(compare["mod_revision"])
        return all(it < wanted if compare["result"] == "LESS" else it == wanted for it in revisions)

    def txn(self, asked):
        before, self.before = self.before, None
        if before:
            before()
        with self.changed:
            done = all(map(self.holds, asked["compare"]))
            if done:
                self.revision += 1
                for change in asked["success"]:
                    if "request_put" in change:
                        self.keys[base64.b64decode(change["request_put"]["key"])] = base64.b64decode(change["request_put"]["value"]), self.revision
                    else:
                        self.keys.pop(base64.b64decode(change["request_delete_range"]["key"]), None)
                self.changed.notify_all()
            return {"header": {"revision": str(self.revision)}, **({"succeeded": True} if done else {})}


class PlayedMember(ThreadingHTTPServer):
    daemon_threads = True

    def __init__(self, store):
        super().__init__(("127.0.0.1", 0), Gateway)
        self.store = store
        self.asked = []
        self.fails = None       # a status and a body in place of each answer
        self.ends_behind = None  # the path behind whose carrying out the connection ends without an answer
        self.url = f"http://127.0.0.1:{self.server_port}"
        threading.Thread(target=self.serve_forever, args=(0.02,), daemon=True).start()

    def end(self):
        self.shutdown()
        self.server_close()


class Gateway(BaseHTTPRequestHandler):
    def do_POST(self):
        asked = json.loads(self.rfile.read(int(self.headers["Content-Length"])))
        server, store = self.server, self.server.store
        server.asked.append(self.path)
        if server.fails:
            self.tell(*server.fails)
        elif self.path == "/v3/watch":
            self.watch(store)
        elif self.path in ("/v3/kv/range", "/v3/kv/txn"):
            told = getattr(store, self.path[len("/v3/kv/"):])(asked)
            if server.ends_behind != self.path:
                self.tell(200, json.dumps(told))
        else:
            self.tell(404, "Not Found")

    def tell(self, status, body):
        self.send_response(status)
        self.send_header("Content-Length", str(len(body)))
        self.end_headers()
        self.wfile.write(body.encode())

    def watch(self, store):
        self.send_response(200)
        self.end_headers()
        with store.changed:
            seen = store.revision
        told = {"created": True}
        while not self.server.fails:
            self.wfile.write(json.dumps({"result": {"header": {}, **told}}).encode() + b"\n")
            with store.changed:
                store.changed.wait_for(lambda: store.revision > seen or self.server.fails)
                seen, told = store.revision, {"events": [{}]}

    def log_message(self, *_):
        pass
