"""Servers of this machine that answer a program for questions, and how it ends over them, for `tools/run_queries`."""
import contextlib
import os
import pty
import socket
import subprocess
import tempfile
import threading

import serving

SECONDS = 120
# so many bytes fit where no link is narrower than Ethernet's
LONGEST_DATAGRAM = 1232


def truncated(reply):
    """The header of a reply with TC, and its question alone."""
    if reply in (serving.NOTHING, serving.CLOSED):
        return reply
    end = serving.question_in(reply)[1]
    return reply[:2] + bytes([reply[2] | 2, reply[3]]) + reply[4:6] + bytes(6) + reply[12:end]


def changed(reply):
    """The reply with its last byte changed, which is one of a signature."""
    if reply in (serving.NOTHING, serving.CLOSED):
        return reply
    return reply[:-1] + bytes([reply[-1] ^ 1])


def short(reply):
    """What goes by datagrams: the reply, or its question alone where it is too long for one (RFC 6891, 6.2.5)."""
    return truncated(reply) if len(reply) > LONGEST_DATAGRAM else reply


def nothing(_reply):
    return serving.NOTHING


@contextlib.contextmanager
def server_of(by_udp, by_tcp, family=socket.AF_INET):
    """The port of a server that answers datagrams and connections so, and the requests that came."""
    seen, done = [], threading.Event()
    host = "127.0.0.1" if family == socket.AF_INET else "::1"

    def datagrams(sock):
        while not done.is_set():
            try:
                request, peer = sock.recvfrom(65_535)
            except OSError:
                continue
            seen.append(("udp", request))
            reply = by_udp(request)
            if reply not in (serving.NOTHING, serving.CLOSED):
                sock.sendto(reply, peer)

    def one(connection):
        def answer(request):
            seen.append(("tcp", request))
            return by_tcp(request)
        with connection, contextlib.suppress(OSError):
            serving.serve_stream(connection, answer)

    def connections(listener):
        while not done.is_set():
            try:
                connection, _ = listener.accept()
            except OSError:
                continue
            connection.settimeout(SECONDS)
            threading.Thread(target=one, args=(connection,), daemon=True).start()

    with socket.socket(family, socket.SOCK_DGRAM) as sock, socket.socket(family, socket.SOCK_STREAM) as listener:
        while True:
            sock.bind((host, 0))
            try:
                listener.bind((host, sock.getsockname()[1]))
                break
            except OSError:
                continue
        listener.listen()
        sock.settimeout(0.2)
        listener.settimeout(0.2)
        threads = [threading.Thread(target=datagrams, args=(sock,)), threading.Thread(target=connections, args=(listener,))]
        for thread in threads:
            thread.start()
        try:
            yield sock.getsockname()[1], seen
        finally:
            done.set()
            for thread in threads:
                thread.join()


@contextlib.contextmanager
def holding_server():
    """The port of a server that sends for ever what is no answer: on each connection a byte now and then, and datagrams under another id."""
    done = threading.Event()

    def flood(sock, request, peer):
        while not done.wait(0.05):
            sock.sendto(bytes([request[0] ^ 1]) + request[1:2] + bytes([request[2] | 0x80]) + request[3:], peer)

    def drip(connection):
        with connection, contextlib.suppress(OSError):
            while not done.wait(0.3):
                connection.sendall(b"\xff")

    def serve(sock, listener):
        while not done.is_set():
            with contextlib.suppress(OSError):
                threading.Thread(target=flood, args=(sock, *sock.recvfrom(65_535)), daemon=True).start()
            with contextlib.suppress(OSError):
                threading.Thread(target=drip, args=(listener.accept()[0],), daemon=True).start()

    sock, listener = serving.bound(0)
    with sock, listener:
        sock.settimeout(0.05)
        listener.settimeout(0.05)
        thread = threading.Thread(target=serve, args=(sock, listener))
        thread.start()
        try:
            yield sock.getsockname()[1]
        finally:
            done.set()
            thread.join()


def asked(path, words, anchors=None, environment=None):
    """How the program ends with these words, and these trust anchors in a file: its status, and its lines."""
    with tempfile.TemporaryDirectory() as folder:
        if anchors is not None:
            with open(f"{folder}/anchors", "w", encoding="ascii") as file:
                file.write(anchors)
            words = [*words, "--anchors", f"{folder}/anchors"]
        ended = subprocess.run([path, *words], capture_output=True, timeout=SECONDS, check=False, stdin=subprocess.DEVNULL,
                               env={**os.environ, **(environment or {})})
    return ended.returncode, ended.stdout.decode(), ended.stderr.decode()


def on_terminal(path, words):
    """What the program says on its standard error where that is a terminal, over a server that says nothing; and the server's port."""
    leader, follower = pty.openpty()
    with server_of(nothing, nothing) as (port, _), os.fdopen(leader, "rb", buffering=0) as terminal:
        with subprocess.Popen([path, f"@127.0.0.1:{port}", *words], stdin=subprocess.DEVNULL, stdout=subprocess.DEVNULL, stderr=follower) as program:
            os.close(follower)
            said = b""
            with contextlib.suppress(OSError):
                while more := terminal.read(65_536):
                    said += more
            program.wait(SECONDS)
    return said.decode(), port
