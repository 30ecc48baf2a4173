"""An etcd for tests: keys in memory, by the paths of the JSON gateway of version 3.4.

    fake = FakeEtcd()
    fake.answer("/v3/kv/txn", {"compare": [], "success": [..]})

`served` has it answer at a port. `faults` are what the next calls come to: `before`, where nothing
is done, or `after`, where it is done and no answer comes.
"""
import base64
import http.server
import json
import threading
from contextlib import contextmanager


def plain(text):
    return base64.b64decode(text).decode("latin-1")


class Lost(OSError):
    """No answer comes."""


class FakeEtcd:
    def __init__(self):
        self.revision, self.keys, self.leases, self.faults = 1, {}, set(), []
        self.compacted = 0

    def answer(self, path, question):
        fault = self.faults.pop(0) if self.faults else ""
        if fault == "before":
            raise Lost("before it was done")
        found = getattr(self, path.rsplit("/", 2)[1] + "_" + path.rsplit("/", 1)[1])(question)
        if fault == "after":
            raise Lost("after it was done")
        return found

    def kv_txn(self, question):
        if not all(map(self.holds, question["compare"])):
            return {}
        if any("request_range" not in part for part in question["success"]):
            self.revision += 1
        return {"succeeded": True, "responses": list(map(self.done, question["success"]))}

    def within(self, part):
        first, end = plain(part["key"]), plain(part.get("range_end", ""))
        return sorted(key for key in self.keys if (first <= key < end if end else key == first))

    def holds(self, compare):
        keys = self.within(compare)
        if compare["target"] == "VERSION":
            return not keys
        if compare["target"] == "CREATE":
            return (self.keys[keys[0]][1] if keys else 0) == int(compare["create_revision"])
        return bool(keys) and self.keys[keys[0]][0] == base64.b64decode(compare["value"])

    def done(self, part):
        (kind, part), = part.items()
        if kind == "request_put":
            key, old = plain(part["key"]), self.keys.get(plain(part["key"]))
            self.keys[key] = (base64.b64decode(part["value"]), old[1] if old else self.revision,
                              int(part["lease"]))
            return {}
        keys = self.within(part)
        if kind == "request_delete_range":
            for key in keys:
                del self.keys[key]
            return {}
        if part.get("sort_target") == "CREATE":
            keys.sort(key=lambda key: self.keys[key][1])
        rows = [{"key": base64.b64encode(key.encode()).decode(),
                 "value": base64.b64encode(self.keys[key][0]).decode(),
                 "create_revision": str(self.keys[key][1])} for key in keys[:part.get("limit")]]
        return {"response_range": {"kvs": rows} if rows else {}}

    def kv_range(self, _):
        return {"header": {"revision": str(self.revision)}}

    def kv_compaction(self, question):
        self.compacted = int(question["revision"])
        return {}

    def lease_grant(self, _):
        number = len(self.leases) + 0x51
        self.leases.add(number)
        return {"ID": str(number)}

    def lease_keepalive(self, question):
        is_there = int(question["ID"]) in self.leases
        return {"result": {"TTL": "5"} if is_there else {}}

    def lease_revoke(self, question):
        self.ended(int(question["ID"]))
        return {}

    def ended(self, lease):
        """A lease is over, and its keys go."""
        self.leases.discard(lease)
        self.keys = {key: row for key, row in self.keys.items() if row[2] != lease}

    def told(self, key):
        """The value of a key."""
        return self.keys[key][0]


@contextmanager
def served(fake, tls=None):
    """The URL at which it answers; with a context for it by https."""
    class Handler(http.server.BaseHTTPRequestHandler):
        protocol_version = "HTTP/1.1"

        def do_POST(self):
            question = json.loads(self.rfile.read(int(self.headers["Content-Length"])))
            try:
                status, answer = 200, fake.answer(self.path, question)
            except Lost as fault:
                status, answer = 503, {"error": str(fault), "code": 14}
            except KeyError as fault:
                status, answer = 404, {"error": str(fault), "code": 5}
            text = json.dumps(answer).encode()
            self.send_response(status)
            self.send_header("Content-Length", str(len(text)))
            self.end_headers()
            self.wfile.write(text)

        def log_message(self, *_):
            pass

    server = http.server.ThreadingHTTPServer(("127.0.0.1", 0), Handler)
    if tls:
        server.socket = tls.wrap_socket(server.socket, server_side=True)
    server.daemon_threads, server.handle_error = True, lambda *_: None  # who asked may have gone
    threading.Thread(target=server.serve_forever, args=(0.01,), daemon=True).start()
    try:
        yield f"http{'s' if tls else ''}://127.0.0.1:{server.server_address[1]}"
    finally:
        server.shutdown()
        server.server_close()
