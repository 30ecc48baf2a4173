"""etcd 3.4 by its JSON gateway: transactions and leases over http or https.

A call goes to one member after another until one answers. So it may be done twice, or be done after
`Unsure` was raised: whoever changes something does so by a transaction that compares what it
changes.
"""
import base64
import http.client
import json
import socket
import ssl
import threading
import time
from typing import Dict, List, NamedTuple, Optional, Tuple
from urllib.parse import urlsplit

REFUSALS = 3, 5, 9, 11  # gRPC's codes where asking again gives the same: 5 is a lease that is gone
SECONDS, MOST_SECONDS = 1.0, 2.0  # for which one member is waited for: longer where etcd is slow


def now() -> float:
    """Seconds that go on while the machine sleeps."""
    return time.clock_gettime(time.CLOCK_BOOTTIME)


class Unsure(Exception):
    """No member has said that it is done, nor that it is not."""


class Refused(Exception):
    """etcd says no, as for a lease that is gone."""


class Value(NamedTuple):
    key: str
    value: bytes
    created: int
    """The revision at which the key came to be."""


def coded(text) -> str:
    return base64.b64encode(text.encode() if isinstance(text, str) else text).decode()


# ---- Parts of a transaction.


def put(key: str, value: bytes, lease: int = 0) -> Dict:
    return {"request_put": {"key": coded(key), "value": coded(value), "lease": str(lease)}}


def get(key: str, end: str = "", **more) -> Dict:
    return {"request_range": {"key": coded(key), "range_end": coded(end), **more}}


def delete(key: str, end: str) -> Dict:
    return {"request_delete_range": {"key": coded(key), "range_end": coded(end)}}


def value_is(key: str, value: bytes) -> Dict:
    return {"key": coded(key), "target": "VALUE", "value": coded(value)}


def created_at(key: str, revision: int) -> Dict:
    """That a key is there since a revision; that it is not there, for 0."""
    return {"key": coded(key), "target": "CREATE", "create_revision": str(revision)}


def none_in(key: str, end: str) -> Dict:
    return {"key": coded(key), "range_end": coded(end), "target": "VERSION", "version": "0"}


def values(answer: Dict) -> List[Value]:
    return [Value(base64.b64decode(one["key"]).decode(), base64.b64decode(one.get("value", "")),
                  int(one["create_revision"]))
            for one in answer.get("response_range", {}).get("kvs", [])]


class Etcd:
    """Its members by their URLs, with commas between them. It serves one thread."""

    def __init__(self, urls: str, tls: Optional[ssl.SSLContext] = None):
        self.urls, self.tls, self.seconds = urls, tls, SECONDS
        self.asked_at = 0.0
        """When the last question was sent that was answered."""
        self._places = [urlsplit(url) for url in urls.split(",")]
        self._link: Optional[http.client.HTTPConnection] = None

    def call(self, path: str, question: Dict) -> Dict:
        fault: Exception = OSError("there is none")
        for _ in self._places:
            start = now()
            try:
                answer = self._ask(path, question)
                self.asked_at = start
                self._wait_for(2 * (now() - start))
                return answer
            except (OSError, http.client.HTTPException, ValueError) as this:
                fault = this
                if self._link:
                    self._link.close()
                self._link, self._places = None, self._places[1:] + self._places[:1]
                if isinstance(this, socket.timeout):
                    self._wait_for(2 * self.seconds)
        raise Unsure(f"no member of etcd answers: {fault}")

    def _wait_for(self, seconds: float) -> None:
        """Has a member waited for so long. Else each call to an etcd that is slow were given up,
        and done again and again."""
        self.seconds = min(max(seconds, SECONDS), MOST_SECONDS)
        if self._link and self._link.sock:
            self._link.sock.settimeout(self.seconds)

    def _ask(self, path: str, question: Dict) -> Dict:
        if self._link is None:
            scheme, place = self._places[0][:2]
            kind, more = (http.client.HTTPConnection, {}) if scheme == "http" else \
                (http.client.HTTPSConnection, {"context": self.tls})
            self._link = kind(place, timeout=self.seconds, **more)
        self._link.request("POST", path, json.dumps(question))
        response = self._link.getresponse()
        answer = json.loads(response.read())
        if response.status == 200 and "error" not in answer:
            return answer
        if answer.get("code") in REFUSALS:
            raise Refused(answer["error"])
        raise OSError(str(answer.get("error")))

    def transact(self, compare: List[Dict], success: List[Dict]) -> Tuple[bool, List[List[Value]]]:
        """Whether what is compared holds, and what was found where it does."""
        answer = self.call("/v3/kv/txn", {"compare": compare, "success": success})
        return answer.get("succeeded", False), list(map(values, answer.get("responses", [])))

    def grant(self, seconds: int) -> int:
        return int(self.call("/v3/lease/grant", {"TTL": seconds})["ID"])

    def keep_alive(self, lease: int) -> int:
        """The seconds that a lease has from now on; 0 where it is gone."""
        return int(self.call("/v3/lease/keepalive", {"ID": str(lease)})["result"].get("TTL", 0))

    def revoke(self, lease: int) -> None:
        self.call("/v3/lease/revoke", {"ID": str(lease)})

    def compact(self, key: str) -> None:
        """Lets go of what keys were before now. `key` is any."""
        here = self.call("/v3/kv/range", {"key": coded(key)})["header"]["revision"]
        try:
            self.call("/v3/kv/compaction", {"revision": here, "physical": True})
        except Refused:
            pass  # it was done just now


class Lease:
    """A lease that is kept alive beside what else is done, by calls of its own, until it is left.
    It is held until `margin` seconds before its end."""

    def __init__(self, members: Etcd, seconds: int, margin: float):
        self.etcd, self.seconds, self.margin = Etcd(members.urls, members.tls), seconds, margin
        self.members, self.lost = members, False
        self.id = members.grant(seconds)
        self.until = members.asked_at + seconds
        threading.Thread(target=self._keep, daemon=True).start()

    def is_held(self) -> bool:
        return not self.lost and now() < self.until - self.margin

    def _keep(self) -> None:
        while self.is_held():
            start = now()
            try:
                self.until = self.etcd.keep_alive(self.id) + self.etcd.asked_at
            except Unsure:
                pass
            except Refused:
                self.lost = True
            time.sleep(max(0.0, start + self.seconds / 6 - now()))

    def __enter__(self) -> "Lease":
        return self

    def __exit__(self, *_) -> None:
        self.lost = True
        try:
            self.members.revoke(self.id)
        except (Unsure, Refused):
            pass  # it ends by itself
