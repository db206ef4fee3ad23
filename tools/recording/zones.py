"""Signed zones of four levels, made by Debian's ldnsutils and served on this machine by Debian's nsd, for `tools/try_record`; and what the other tries over servers share.

The root and `two.one.` deny by NSEC, `one.` by NSEC3, `out.one.` by NSEC3 with opt-out. Below `one.` are an unsigned zone, one
whose signatures have ended, one whose DS record has another digest, and one whose DS record is of an algorithm that nobody knows."""
import os
import socket
import subprocess
import sys
import time

TOOL = f"tools/{os.path.basename(sys.argv[0])}"
ALGORITHMS = {".": "ECDSAP256SHA256", "one.": "RSASHA256", "two.one.": "ED25519", "out.one.": "ECDSAP384SHA384",
              "ended.one.": "ECDSAP256SHA256", "wrong.one.": "ECDSAP256SHA256"}
SOA = "{zone} 3600 IN SOA ns.one. host.one. 1 3600 600 86400 300\n{zone} 3600 IN NS ns.one.\n"
TEXTS = {
    ".": "one. 3600 IN NS ns.one.\nns.one. 3600 IN A 127.0.0.1\nabc. 3600 IN A 10.0.0.1\n*.wild. 3600 IN TXT \"any\"\n",
    "one.": "ns.one. 3600 IN A 127.0.0.1\nwww.one. 3600 IN A 10.0.1.1\nwww.one. 3600 IN AAAA ::1\nalias.one. 3600 IN CNAME www.one.\n"
            "a.b.c.one. 3600 IN A 10.0.1.2\n*.star.one. 3600 IN A 10.0.1.3\nfar.one. 3600 IN CNAME www.two.one.\n"
            "two.one. 3600 IN NS ns.one.\nout.one. 3600 IN NS ns.one.\nplain.one. 3600 IN NS ns.one.\nended.one. 3600 IN NS ns.one.\n"
            "wrong.one. 3600 IN NS ns.one.\nodd.one. 3600 IN NS ns.one.\n"
            "odd.one. 3600 IN DS 12345 250 2 000102030405060708090a0b0c0d0e0f101112131415161718191a1b1c1d1e1f\n",
    "two.one.": "www.two.one. 3600 IN A 10.0.2.1\nmail.two.one. 3600 IN MX 10 www.two.one.\n*.star.two.one. 3600 IN TXT \"two\"\n"
                "out.two.one. 3600 IN CNAME www.plain.one.\n",
    "out.one.": "www.out.one. 3600 IN A 10.0.3.1\nleft.out.one. 3600 IN NS ns.one.\n",
    "plain.one.": "www.plain.one. 3600 IN A 10.0.4.1\n",
    "ended.one.": "www.ended.one. 3600 IN A 10.0.5.1\n",
    "wrong.one.": "www.wrong.one. 3600 IN A 10.0.6.1\n",
    "odd.one.": "www.odd.one. 3600 IN A 10.0.7.1\n",
    "left.out.one.": "www.left.out.one. 3600 IN A 10.0.8.1\n",
}
# below before above, since a zone has the DS records of those below it
ORDER = ["left.out.one.", "odd.one.", "wrong.one.", "ended.one.", "plain.one.", "out.one.", "two.one.", "one.", "."]
HASHED = {"one.": [], "out.one.": ["-p"]}


def run(command, folder):
    try:
        ran = subprocess.run(command, cwd=folder, capture_output=True, check=False)
    except FileNotFoundError:
        sys.exit(f"{TOOL}: no {command[0]} (Debian: apt-get install ldnsutils nsd)")
    if ran.returncode:
        sys.exit(f"{TOOL}: {' '.join(command)}: {ran.stderr.decode()[-500:]}")
    return ran.stdout.decode().split()


def file_of(zone):
    return "root" if zone == "." else zone.rstrip(".")


def day(offset):
    return time.strftime("%Y%m%d%H%M%S", time.gmtime(time.time() + offset * 86_400))


def sign(folder, zone, delegations):
    """Writes a zone and its signed form; the DS record of a signed zone is kept for the one above it."""
    path = os.path.join(folder, file_of(zone))
    with open(path, "w", encoding="ascii") as file:
        file.write(SOA.format(zone=zone) + TEXTS[zone] + "".join(delegations))
    if zone not in ALGORITHMS:
        return path, None
    key = run(["ldns-keygen", "-k", "-a", ALGORITHMS[zone], *(["-b", "2048"] if "RSA" in ALGORITHMS[zone] else []), zone], folder)[0]
    with open(os.path.join(folder, f"{key}.ds"), encoding="ascii") as file:
        ds = " ".join(file.read().split()) + "\n"
    days = (-60, -30) if zone == "ended.one." else (-1, 30)
    hashing = ["-n", "-a", "1", "-t", "0", *HASHED[zone]] if zone in HASHED else []
    run(["ldns-signzone", "-i", day(days[0]), "-e", day(days[1]), *hashing, file_of(zone), key], folder)
    if zone == "wrong.one.":
        ds = ds[:-2] + ("0" if ds[-2] != "0" else "1") + "\n"
    return f"{path}.signed", (ds, f"{key}.key")


def made(folder):
    """The file of each zone, and that of the root's key."""
    files, delegations, key = {}, {}, None
    for zone in ORDER:
        below = [ds for name, ds in delegations.items() if name != zone and is_child(name, zone)]
        files[zone], signed = sign(folder, zone, below)
        if signed:
            delegations[zone], key = signed
    return files, os.path.join(folder, key)


def is_child(name, zone):
    upper = name.split(".", 1)[1] or "."
    return upper == zone


def delv_anchor(folder, key):
    """The root's key as BIND's delv takes it."""
    with open(key, encoding="ascii") as file:
        fields = file.read().split(";")[0].split()
    flags, protocol, algorithm, *text = fields[fields.index("DNSKEY") + 1:]
    path = os.path.join(folder, "delv.keys")
    with open(path, "w", encoding="ascii") as file:
        file.write(f"trust-anchors {{ \".\" static-key {flags} {protocol} {algorithm} \"{''.join(text)}\"; }};\n")
    return path


def free_port():
    with socket.socket(socket.AF_INET, socket.SOCK_DGRAM) as one:
        one.bind(("127.0.0.1", 0))
        return one.getsockname()[1]


def serve(folder, files):
    """Starts a server of the zones on a port above 1024: the process and the port."""
    port = free_port()
    zones = "".join(f"zone:\n  name: \"{zone}\"\n  zonefile: \"{path}\"\n" for zone, path in files.items())
    path = os.path.join(folder, "nsd.conf")
    with open(path, "w", encoding="ascii") as file:
        file.write(f"server:\n  ip-address: 127.0.0.1@{port}\n  username: \"\"\n  chroot: \"\"\n  database: \"\"\n  zonesdir: \"{folder}\"\n"
                   f"  pidfile: \"{folder}/nsd.pid\"\n  xfrdfile: \"{folder}/xfrd\"\n  zonelistfile: \"{folder}/zones\"\n  server-count: 1\n"
                   f"remote-control:\n  control-enable: no\n{zones}")
    try:
        server = subprocess.Popen(["nsd", "-d", "-c", path], stdout=subprocess.DEVNULL, stderr=subprocess.PIPE)
    except FileNotFoundError:
        sys.exit("tools/try_record: no nsd (Debian: apt-get install nsd)")
    time.sleep(1)
    if server.poll() is not None:
        sys.exit(f"{TOOL}: nsd ended: {server.stderr.read().decode()[-500:]}")
    return server, port
