"""Asks one server over UDP, and over TCP where a reply is truncated: messages by python3-dnspython.

A reply is kept as it came. What comes from elsewhere, with another id or to another question is no reply (RFC 5452, 4)."""
import socket
import time

import dns.exception
import dns.flags
import dns.message

# seconds for one try, and tries of one question
TIMEOUT, TRIES = 3.0, 3
UDP_BYTES, LARGEST = 1232, 65535
# of a whole recording: messages that are sent, and seconds
MOST_QUERIES, MOST_SECONDS = 1024, 120


class LimitMet(Exception):
    """What goes on no further, and why."""


class Server:
    """A server by its address and port. `log` is a file to which each message is written, or None."""

    def __init__(self, address, port, log=None):
        self.place, self.log = (address, port), log
        self.family = socket.AF_INET6 if ":" in address else socket.AF_INET
        self.sent, self.end = 0, time.monotonic() + MOST_SECONDS

    def seconds_left(self):
        """Of the whole recording."""
        left = self.end - time.monotonic()
        if left <= 0:
            raise LimitMet(f"{MOST_SECONDS} seconds have passed, and it isn't whole")
        return left

    def noted(self, how, octets):
        if self.log:
            self.log.write(f"{time.time():.6f} {how} {octets.hex()}\n")
            self.log.flush()
        return octets

    def sending(self, how, query):
        """The bytes of a query that is sent now."""
        if self.sent >= MOST_QUERIES:
            raise LimitMet(f"{MOST_QUERIES:,} queries were sent, and there are more")
        self.sent += 1
        return self.noted(how, query.to_wire())

    def ask(self, name, rdtype):
        """The bytes of the reply; or `timeout` or `io` where there is none."""
        query = dns.message.make_query(name, rdtype, use_edns=0, want_dnssec=True, payload=UDP_BYTES)
        query.flags |= dns.flags.CD
        fault = "timeout"
        for _ in range(TRIES):
            end = time.monotonic() + min(TIMEOUT, self.seconds_left())
            try:
                reply = self.by_datagram(query, end)
                return self.by_stream(query, end) if is_truncated(reply) else reply
            except TimeoutError:
                fault = "timeout"
            except OSError:
                fault = "io"
        return fault

    def by_datagram(self, query, end):
        with socket.socket(self.family, socket.SOCK_DGRAM) as link:
            link.connect(self.place)
            link.send(self.sending("udp >", query))
            while True:
                link.settimeout(until(end))
                reply = self.noted("udp <", link.recv(LARGEST))
                if is_reply(query, reply):
                    return reply

    def by_stream(self, query, end):
        with socket.create_connection(self.place, timeout=until(end)) as link:
            octets = self.sending("tcp >", query)
            link.sendall(len(octets).to_bytes(2, "big") + octets)
            size = int.from_bytes(whole(link, 2, end), "big")
            reply = self.noted("tcp <", whole(link, size, end))
            if not is_reply(query, reply):
                raise OSError("a reply to another question")
            return reply


def until(end):
    """The seconds until then, where there are some."""
    left = end - time.monotonic()
    if left <= 0:
        raise TimeoutError
    return left


def whole(link, size, end):
    octets = b""
    while len(octets) < size:
        link.settimeout(until(end))
        more = link.recv(size - len(octets))
        if not more:
            raise OSError("the connection ended")
        octets += more
    return octets


def is_truncated(reply):
    return bool(reply[2] & 0x02)


def is_reply(query, reply):
    """Whether the bytes answer the query: its id and its question."""
    try:
        heard = dns.message.from_wire(reply, question_only=True, ignore_trailing=True)
    except dns.exception.DNSException:
        return False
    return heard.id == query.id and bool(heard.flags & dns.flags.QR) and heard.question == query.question
