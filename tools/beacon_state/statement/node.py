"""States from a beacon node: the right slot's, over HTTP, with Python's library alone."""
import json
import tempfile
import urllib.error
import urllib.request
from contextlib import contextmanager

from altair_close._command import said

from .. import settings as settings_of
from ..errors import Bad, Stopped
from ..files import LONGEST_STATE

STATE = "/eth/v2/debug/beacon/states/{}"
SPEC = "/eth/v1/config/spec"
SECONDS = 60  # without a byte, after which the node is given up
PIECE = 2**20


class Node:
    def __init__(self, url):
        if not url.startswith(("http://", "https://")):
            raise Stopped(f"--node {url}: an address as http://127.0.0.1:5052 is wanted")
        self.url = url.rstrip("/")

    def asked(self, path, accept="application/json"):
        """The answer, open; an HTTPError where the node says no, Stopped where nobody answers."""
        try:
            return urllib.request.urlopen(urllib.request.Request(self.url + path, headers={"Accept": accept}), timeout=SECONDS)
        except urllib.error.HTTPError:
            raise
        except (urllib.error.URLError, OSError, ValueError) as error:
            raise Stopped(f"{self.url}: {getattr(error, 'reason', None) or error}") from None

    def answer(self, path):
        """The bytes of a short answer; None where the node has none."""
        try:
            with self.asked(path) as answer:
                return answer.read(2**22)
        except urllib.error.HTTPError as error:
            error.close()
            return None
        except OSError as error:
            raise Stopped(f"{self.url}{path}: {error}") from None

    def settings(self):
        """The network's own settings."""
        data = self.answer(SPEC)
        if data is None:
            raise Stopped(f"{self.url}{SPEC}: no answer: --preset or --settings names the settings")
        return settings_of.from_files([(self.url + SPEC, data)])

    @contextmanager
    def state(self, slot):
        """A file with the state at a slot."""
        path = STATE.format(slot)
        try:
            answer = self.asked(path, "application/octet-stream")
        except urllib.error.HTTPError as error:
            error.close()
            raise Stopped(self.why_not(slot, error)) from None
        with answer, tempfile.TemporaryFile() as kept:
            size = int(answer.headers.get("Content-Length") or 0)
            told = 0
            while True:
                try:
                    piece = answer.read(PIECE)
                except OSError as error:
                    raise Stopped(f"{self.url}{path}: {error}") from None
                if not piece:
                    break
                kept.write(piece)
                if kept.tell() > LONGEST_STATE:
                    raise Bad(f"{self.url}{path}: more than {LONGEST_STATE} bytes, and no more are read")
                if kept.tell() - told >= 16 * PIECE:
                    told = kept.tell()
                    said("statement", f"slot {slot}: {told // 2**20} MB" + (f" of {size // 2**20}" if size else ""))
            if size and kept.tell() != size:
                raise Stopped(f"{self.url}{path}: {kept.tell()} bytes came, and {size} were announced")
            kept.seek(0)
            yield kept

    def why_not(self, slot, error):
        """Why the node has no such state, in words: not there yet, pruned, or the debug interface is off."""
        head = self.number("/eth/v1/node/syncing", "head_slot")
        if head is not None and head < slot:
            return f"{self.url}: slot {slot} is ahead: the node's head is slot {head}, and the epoch has not ended"
        if self.answer(f"/eth/v1/beacon/states/{slot}/root") is not None:
            return f"{self.url}: it has the state at slot {slot} and does not serve it ({error.code}): its debug interface is off"
        why = f"{error.code} {error.reason}"
        return f"{self.url}: it has no state at slot {slot} ({why}): an archive node keeps states that others have pruned"

    def number(self, path, name):
        try:
            return int(json.loads(self.answer(path))["data"][name])
        except (TypeError, ValueError, KeyError):
            return None
