"""Debian's knot and bind9 on this machine, each with the zones of `zones.py`, for `tools/try_query`."""
import os
import subprocess
import sys

import resolvers
import zones

BIND = """options {{
  directory "{folder}";
  listen-on port {port} {{ 127.0.0.1; }};
  listen-on-v6 {{ none; }};
  pid-file none;
  recursion no;
  dnssec-validation no;
}};
controls {{ }};
"""
KNOT = """server:
  listen: 127.0.0.1@{port}
  rundir: {folder}
database:
  storage: {folder}/database
zone:
"""


def started(command, package, port):
    """A process that listens at a port."""
    try:
        process = subprocess.Popen(command, stdout=subprocess.DEVNULL, stderr=subprocess.PIPE)
    except FileNotFoundError:
        sys.exit(f"{zones.TOOL}: no {command[0]} (Debian: apt-get install {package})")
    wrong = resolvers.wait_for(port, process)
    if wrong:
        sys.exit(f"{zones.TOOL}: {command[0]}: {wrong}: {process.stderr.read().decode()[-500:] if process.poll() is not None else ''}")
    return process


def written(folder, name, text):
    path = os.path.join(folder, name)
    with open(path, "w", encoding="ascii") as file:
        file.write(text)
    return path


def bind(folder, files):
    """Starts named: the process and its port."""
    port = zones.free_port()
    own = "".join(f"zone \"{zone}\" {{ type primary; file \"{path}\"; }};\n" for zone, path in files.items())
    path = written(folder, "named.conf", BIND.format(folder=folder, port=port) + own)
    return started(["named", "-f", "-c", path], "bind9", port), port


def knot(folder, files):
    """Starts knotd: the process and its port."""
    port = zones.free_port()
    own = "".join(f"  - domain: \"{zone}\"\n    file: \"{path}\"\n" for zone, path in files.items())
    os.makedirs(os.path.join(folder, "database"), exist_ok=True)
    path = written(folder, "knot.conf", KNOT.format(folder=folder, port=port) + own)
    return started(["knotd", "-c", path], "knot", port), port
