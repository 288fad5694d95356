"""An office with the search in all archives, and who asks it."""

import http.client
import json
import time

import index
from answers import Finder, Query
from asking import Asking
from folding import read_typed
from rounds import Round

from acceptance.front.asks import Asks
from acceptance.front.office import Office

FOREVER = 10**6  # a round with this sweep looks at all pages


class Searched(Office):
    """An office whose front takes more searches in a row."""

    def __init__(self, program, folder, **how):
        super().__init__(program, folder, changes=[("searches:2m rate=2r/s", "searches:2m rate=300r/s")], **how)
        self.desk, self.public_ask = None, None

    def ask(self, path):
        """What the public sees at this path, or None."""
        if self.public_ask is None:
            self.public_ask = Asking(self.queue)
        self.public_ask.until = time.monotonic() + 100
        return self.public_ask(path)

    def tell(self, path, body):
        """A command by the desk's way into the queue. Its status and answer."""
        if self.desk is None:
            self.desk = http.client.HTTPConnection("127.0.0.1", self.ports["8092"], timeout=250)
        data = body if isinstance(body, bytes) else json.dumps(body).encode()
        for left in (True, False):
            try:
                self.desk.request("POST", path, data)
                answer = self.desk.getresponse()
                return answer.status, json.loads(answer.read())
            except (ConnectionError, http.client.HTTPException):  # the kept connection was closed
                self.desk.close()
                if not left:
                    raise

    def round(self, sweep=FOREVER, **values):
        """One round, without the service. What was asked for."""
        ask, paths, db = Asking(self.queue), [], index.open_or_make(str(self.index), False)
        try:
            Round(db, lambda path: paths.append(path) or ask(path), sweep, **values).run()
        finally:
            db.close()
        return paths

    def find(self, typed, **values):
        """One answer, without the service and nginx."""
        db = index.open_index(str(self.index))
        try:
            return Finder(db, Asking(self.queue), Query(read_typed(typed), **values)).find(100)
        finally:
            db.close()

    def ask_service(self, args):
        """The service's answer by nginx: status and text."""
        return Asks(self).question(f"/public/search?{args}")
