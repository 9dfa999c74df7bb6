"""The server, asked as its operator does."""
import json
import time

from shared.http_client import Connection, request
from shared.report import want
from shared.server import Server, configuration


def error(word):
    """What the body of a refusal says."""
    return {"error": word}


class Host(Server):
    """The server with an operator's address."""

    def __init__(self, program, tenants, **members):
        super().__init__(program, configuration(tenants, operator="127.0.0.1:0", **{"segments": 4096, **members}))

    def answer(self, method, target, body=None, lines=()):
        """The answer to a call of the operator, by a connection of its own."""
        with Connection(self.operator) as connection:
            connection.send(request(target, "" if body is None else json.dumps(body), lines, method))
            return connection.answer(method, 30)

    def ask(self, method, target, body=None, lines=()):
        """A call of the operator: its status and what its body says."""
        told = self.answer(method, target, body, lines)
        return told.status, json.loads(told.body) if told.body else None

    def text(self, target):
        told = self.answer("GET", target)
        want((told.status, told.values("content-type")) == (200, ["text/plain; version=0.0.4"]), f"{target}: {told.status}")
        return told.body.decode()

    def expect(self, wanted, method, target, body=None, lines=()):
        told = self.ask(method, target, body, lines)
        want(told == wanted, f"{method} {target} {body}: {told}, wanted {wanted}")

    def expect_at_last(self, wanted, method, target):
        """What a call that changes nothing tells by and by."""
        told = asked_until(lambda told: told == wanted, lambda: self.ask(method, target))
        want(told == wanted, f"{method} {target}: {told}, wanted {wanted}")

    def expect_status(self, wanted, method, target, body=None):
        status, said = self.ask(method, target, body)
        want(status == wanted, f"{method} {target} {body}: {status} {said}, wanted {wanted}")
        return said


def asked_until(holds, ask, seconds=20):
    """Asks again while it doesn't hold: a busy machine takes longer, and a tenant that is busy is told as it was before."""
    last = time.monotonic() + seconds
    while not holds(told := ask()) and time.monotonic() < last:
        time.sleep(0.05)
    return told
