"""Debian's unbound on this machine, in front of the zones of `zones.py`: one that doesn't validate, over which all others ask, and one that does; and what they share.

For `tools/try_forward` and `bench/forward/measure.py`."""
import os
import socket
import subprocess
import sys
import time

import zones

COMMON = """server:
  interface: 127.0.0.1
  port: {port}
  access-control: 127.0.0.0/8 allow
  do-ip6: no
  do-not-query-localhost: no
  num-threads: 1
  username: ""
  chroot: ""
  directory: "{folder}"
  pidfile: "{folder}/unbound-{port}.pid"
  use-syslog: no
  verbosity: 0
  minimal-responses: yes
  incoming-num-tcp: 64
  outgoing-num-tcp: 64
  rrset-roundrobin: no
  so-reuseport: no
  module-config: "{modules}"
  {anchor}
remote-control:
  control-enable: no
forward-zone:
  name: "."
  forward-addr: 127.0.0.1@{above}
"""


def waits_at(port, kind):
    """Whether something listens at a port, by what the system lists."""
    with open(f"/proc/net/{kind}", encoding="ascii") as file:
        lines = [line.split() for line in file.read().splitlines()[1:]]
    return any(line[1].endswith(f":{port:04X}") and (kind == "udp" or line[3] == "0A") for line in lines)


def wait_for(port, process, kind="udp", seconds=10):
    """Waits until a process listens at a port; what is wrong where it doesn't."""
    for _ in range(seconds * 100):
        if waits_at(port, kind):
            return None
        if process.poll() is not None:
            return f"it ended with {process.returncode}"
        time.sleep(0.01)
    return "it doesn't listen"


def unbound(folder, above, anchor=None, preload=None):
    """Starts an unbound that asks the server at a port: the process and its port. It validates where it is given the file of a key, and loads a library first where
    it is given one."""
    port = zones.free_port()
    path = os.path.join(folder, f"unbound-{port}.conf")
    with open(path, "w", encoding="ascii") as file:
        file.write(COMMON.format(port=port, folder=folder, above=above, modules="validator iterator" if anchor else "iterator",
                                 anchor=f"trust-anchor-file: \"{anchor}\"" if anchor else ""))
    try:
        environment = {**os.environ, "LD_PRELOAD": preload} if preload else None
        process = subprocess.Popen(["unbound", "-d", "-c", path], stdout=subprocess.DEVNULL, stderr=subprocess.PIPE, env=environment)
    except FileNotFoundError:
        sys.exit(f"{zones.TOOL}: no unbound (Debian: apt-get install unbound)")
    wrong = wait_for(port, process)
    if wrong:
        sys.exit(f"{zones.TOOL}: unbound: {wrong}: {process.stderr.read().decode()[-500:] if process.poll() is not None else ''}")
    return process, port


class Servers:
    """The zones with their server, the unbound that doesn't validate, and the one that does."""

    def __init__(self, folder, preload=None):
        self.processes = []
        self.files, self.key = zones.made(folder)
        server, self.zones = zones.serve(folder, self.files)
        self.processes.append(server)
        for name, anchor in (("upstream", None), ("validating", self.key)):
            process, port = unbound(folder, self.zones if anchor is None else self.upstream, anchor, preload)
            self.processes.append(process)
            setattr(self, name, port)

    def __enter__(self):
        return self

    def __exit__(self, *_):
        for process in reversed(self.processes):
            process.terminate()
            process.wait()


def query_of(name, kind, dnssec=False, flags=0x0120):
    """A query in wire form, with RD and AD where the flags aren't others."""
    labels = b"".join(bytes([len(label)]) + label.encode() for label in name.rstrip(".").split(".") if label)
    edns = b"\0\0\x29\x04\xd0\0\0\x80\0\0\0" if dnssec else b""
    return b"\0\0" + flags.to_bytes(2, "big") + b"\0\1\0\0\0\0" + (b"\0\1" if edns else b"\0\0") + labels + b"\0" + kind.to_bytes(2, "big") + b"\0\1" + edns


def joined(sessions):
    """One session with the anchors and the algorithms of the first, and the `accept` lines of all."""
    lines = sessions[0].decode("ascii").splitlines()
    known = set(lines)
    more = [line for session in sessions[1:] for line in session.decode("ascii").splitlines() if line.startswith("accept ")]
    more = [line for line in dict.fromkeys(more) if line not in known]
    last = max(at for at, line in enumerate(lines) if line.startswith(("accept ", "anchor "))) + 1
    return ("\n".join(lines[:last] + more + lines[last:]) + "\n").encode("ascii")


def forwarder(program, words, session, port, kind):
    """Starts a `dns_forward` with the words behind the first, and waits until it listens at a port."""
    process = subprocess.Popen([program, *map(str, words)], stdin=subprocess.PIPE, stdout=subprocess.PIPE, stderr=subprocess.PIPE)
    process.stdin.write(session)
    process.stdin.close()
    process.stdin = None
    wrong = wait_for(port, process, kind)
    if wrong:
        sys.exit(f"{zones.TOOL}: {program} {' '.join(map(str, words))}: {wrong}")
    return process


def free_tcp_port():
    with socket.socket() as one:
        one.setsockopt(socket.SOL_SOCKET, socket.SO_REUSEADDR, 1)
        one.bind(("127.0.0.1", 0))
        return one.getsockname()[1]
