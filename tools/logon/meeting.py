"""One logon: who meets whom, what is between them, and how each side must end."""
import hashlib
import re
import ssl
from dataclasses import dataclass, field
from typing import Callable

import tsrequest
from relay import Relay

DOMAIN, USER, PASSWORD = "DOM", "ann", "secret"
OTHER_USER, OTHER_PASSWORD = "bob", "пароль €𝄞"
NAME = f"{DOMAIN}\\{USER}"


@dataclass
class Expected:
    """The exit status of a side, None for any, and expressions each of which must be found in what
    it said."""
    status: int | None
    expressions: tuple

    def is_met(self, said):
        return self.status in (None, said.status) and all(
            re.search(one, said.text) for one in self.expressions
        )

    def found(self, said):
        """What was said of that which was expected."""
        matches = (re.search(one, said.text) for one in self.expressions)
        return "; ".join(re.sub(r"\s+", " ", match.group(0)) for match in matches if match)


def says(status, *expressions):
    return Expected(status, expressions)


@dataclass
class Row:
    """What came of a logon."""
    pair: str
    name: str
    client: str
    server: str
    good: bool

    def plain(self):
        return f"{self.pair}: {self.name}\n    client: {self.client}\n    server: {self.server}"

    def markdown(self):
        return (
            "| "
            + " | ".join(text.replace("|", "\\|") for text in (self.name, self.client, self.server))
            + " |\n"
        )


@dataclass
class Logon:
    """`start` answers a server and its port, `stop` what it said, `connect` a client's run at a
    port, `between` a relay to a port."""
    pair: str
    name: str
    start: Callable
    stop: Callable
    connect: Callable
    client: Expected
    server: Expected
    between: Callable | None = None
    # whether a request with credentials may have reached the relay; None for either
    credentials_left: bool | None = None

    def meet(self):
        """The relay, if there is one, and what the client and the server said."""
        server, port = self.start()
        try:
            relay = self.between(port) if self.between else None
            if relay:
                relay.start()
            return relay, self.connect(relay.port if relay else port), self.stop(server)
        except BaseException:
            server.kill()
            raise

    def run(self):
        relay, client, server = self.meet()
        sides = [(self.client, client), (self.server, server)]
        good = all(expected.is_met(said) for expected, said in sides)
        texts = [expected.found(said) for expected, said in sides]
        if self.credentials_left is not None:
            relay.join()
            good = good and relay.credentials_left() == self.credentials_left
            texts[0] += "" if relay.credentials_left() else "; no credentials left it"
        if not good:
            texts = [f"{text}\n{said.everything()}" for text, (_, said) in zip(texts, sides)]
        return Row(self.pair, self.name, *texts, good)


@dataclass
class Table:
    """The logons of a run, with those who take part in them."""
    ours: object
    freerdp: object
    realm: object
    work: object
    logons: list = field(default_factory=list)

    def fingerprint(self, certificate):
        # FreeRDP ends the file with a zero
        text = certificate.read_text().strip("\0\n")
        return ["--fingerprint", hashlib.sha256(ssl.PEM_cert_to_DER_cert(text)).hexdigest()]

    def freerdp_at_ours(
        self, name, client, server, words=(), client_words=("/sec:nla",),
        user=USER, password=PASSWORD, domain=DOMAIN, kerberos=None, **more
    ):
        self.logons.append(Logon(
            f"{self.freerdp.name} at ours",
            name,
            lambda: self.ours.start(*words),
            self.ours.stop,
            lambda port: self.freerdp.connect(
                port, domain, user, password, *client_words, kerberos=kerberos
            ),
            client,
            server,
            **more,
        ))

    def ours_at_freerdp(
        self, name, client, server, words=(), server_words=("/sec:nla",),
        user=NAME, password=PASSWORD, trust=None, environment=None, **more
    ):
        def start():
            sam = self.work / "sam"
            users = ((USER, PASSWORD), (OTHER_USER, OTHER_PASSWORD))
            sam.write_text(
                "".join(self.freerdp.sam_line(DOMAIN, *user) for user in users), encoding="utf8"
            )
            kerberos = {"KRB5_CONFIG": environment["KRB5_CONFIG"]} if environment else None
            return self.freerdp.start(sam, *server_words, environment=kerberos)

        def connect(port):
            certificate, _ = self.freerdp.files()
            return self.ours.connect(
                port,
                user,
                password,
                *words,
                trust=trust or self.fingerprint(certificate),
                environment=environment,
            )
        self.logons.append(Logon(
            f"ours at {self.freerdp.name}",
            name,
            start,
            self.freerdp.stop,
            connect,
            client,
            server,
            **more,
        ))

    def ours_at_ours(
        self, name, client, server, words=(), server_words=(),
        user=NAME, password=PASSWORD, trust=None, environment=None, **more
    ):
        self.logons.append(Logon(
            "ours at ours",
            name,
            lambda: self.ours.start(*server_words, environment=environment),
            self.ours.stop,
            lambda port: self.ours.connect(
                port, user, password, *words, trust=trust, environment=environment
            ),
            client,
            server,
            **more,
        ))

    def other(self, port):
        """A relay with a certificate of its own."""
        return Relay(self.work / "other.crt", self.work / "other.key", port)

    def passing(self, edit):
        """A relay with the certificate of our server, so that nothing but its edits is amiss."""
        return lambda port: Relay(self.ours.certificate, self.ours.key, port, edit)

    def passing_to_freerdp(self, edit):
        """The same with that of FreeRDP's server."""
        return lambda port: Relay(*self.freerdp.files(), port, edit)


# edits of a relay

def rewriting(number):
    """Both ends are told that the other has this version."""
    return lambda sender, count, request: tsrequest.with_version(request, number)


def cutting(whose, which):
    """Half of one message, and then the end of the connection."""
    return lambda sender, count, request: (
        request[:len(request) // 2] if (sender, count) == (whose, which) else request
    )


def spoiling(whose, which):
    """One message is no TSRequest: its version has another tag."""
    def edit(sender, count, request):
        _, begin, _ = tsrequest.header(request, 0)
        return (
            request[:begin] + b"\xaf" + request[begin + 1:]
            if (sender, count) == (whose, which)
            else request
        )
    return edit


def garbling(whose, which, number):
    """One bit is changed in a field of one message."""
    return lambda sender, count, request: (
        tsrequest.garbled(request, number) if (sender, count) == (whose, which) else request
    )


def editing(whose, which, path, edit):
    """What is at a path of one message is changed, with all lengths around it."""
    return lambda sender, count, request: (
        tsrequest.within(request, path, edit) if (sender, count) == (whose, which) else request
    )


def both_of(first, second):
    return lambda sender, count, request: second(sender, count, first(sender, count, request))


def stripping(whose):
    """Each MIC of one end is taken out."""
    return lambda sender, count, request: (
        tsrequest.within(request, tsrequest.ANSWERED, tsrequest.without(tsrequest.MIC))
        if sender == whose
        else request
    )
