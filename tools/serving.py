"""A server of this machine that answers with recorded replies, over UDP and TCP, for `tools/serve` and `tools/run_asks`."""
import socket
import struct

from reading import Reader, folded, octets_in, shown, type_word

# what stands in place of a reply
NOTHING, CLOSED = "nothing", "closed"
HEADER = 12


class NotServed(Exception):
    """A session with a line that no server can replay."""


def question_in(request):
    """The folded name and the type that a request asks for, and where its question ends; None where it has no question."""
    if len(request) < HEADER or request[4:6] != b"\0\1":
        return None
    reader = Reader(request, HEADER)
    name, kind = reader.name(), reader.number(2)
    return (folded(name), kind), reader.place + 2


def reply_to(request, reply):
    """The reply under the id of the request. Where both have one question of one length, its letters are the request's too, as a
    server sends them back."""
    asked = question_in(request)
    own = question_in(reply)
    if asked and own and asked == own:
        return request[:2] + reply[2:HEADER] + request[HEADER:asked[1]] + reply[asked[1]:]
    return request[:2] + reply[2:]


class Replies:
    """The replies of a session, by question; where it says so they are served by turn, and the last one stays."""

    def __init__(self, session):
        self.by_turn, self.left = session.by_turn, {}
        for question, (word, rest) in session.replies:
            if (word, rest) == ("fault", "busy"):
                raise NotServed(f"the line `fault {shown(question[0])} {type_word(question[1])} busy`: no server can be busy by wire")
            self.left.setdefault(question, []).append((word, rest))

    def answer(self, request):
        """The bytes of the reply to a request; or that nothing is sent, or that the connection is closed."""
        asked = question_in(request)
        lines = self.left.get(asked[0]) if asked else None
        if not lines:
            return NOTHING
        word, rest = lines.pop(0) if self.by_turn and len(lines) > 1 else lines[0]
        if word == "fault":
            return CLOSED if rest == "io" else NOTHING
        return reply_to(request, octets_in(rest))


def serve_datagrams(server, answer, most=None):
    """Answers datagrams, so many at most, and counts them. Over UDP there is nothing to close, so nothing is sent then."""
    count = 0
    while most is None or count < most:
        request, peer = server.recvfrom(65_535)
        reply = answer(request)
        if reply not in (NOTHING, CLOSED):
            server.sendto(reply, peer)
        count += 1
    return count


def serve_stream(connection, answer, most=None):
    """Answers requests of a connection, so many at most, until the other side closes it or a reply says to; counts them."""
    stream, count = connection.makefile("rb"), 0
    while most is None or count < most:
        length = stream.read(2)
        if len(length) < 2:
            return count
        reply = answer(stream.read(*struct.unpack(">H", length)))
        if reply == CLOSED:
            return count
        if reply != NOTHING:
            connection.sendall(struct.pack(">H", len(reply)) + reply)
        count += 1
    return count


def bound(port):
    """A socket of datagrams and a listener on one port of this machine; port 0 takes a free one."""
    while True:
        server = socket.socket(socket.AF_INET, socket.SOCK_DGRAM)
        server.bind(("127.0.0.1", port))
        try:
            return server, socket.create_server(("127.0.0.1", server.getsockname()[1]))
        except OSError:
            server.close()
            if port:
                raise
