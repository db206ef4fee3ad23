"""Zones below a signed root, each with one fault, made by Debian's ldnsutils, for `tools/try_show`.

Each has a key-signing key, a zone-signing key and an address at `www`. `ended.` has signatures that have ended, `early.` some that haven't begun; the DS record of `wrong.`
has another digest; a bit of the signature of `www.turned.` is turned; `keyless.` shows no longer the key that signs its records; and `www.unsigned.` has
no signature."""
import base64
import os
import re

from zones import day, file_of, run

NAMES = ("ended.", "early.", "wrong.", "turned.", "keyless.", "unsigned.")
DAYS = {"ended.": (-60, -30), "early.": (30, 60)}
HEAD = "{zone} 3600 IN SOA ns. host. 1 3600 600 86400 300\n"
OF_KEYS = re.compile(r"\S+\s+\d+\s+IN\s+(DNSKEY\s|RRSIG\s+DNSKEY\s)")


def of_address(zone):
    """The line of the signature over the address."""
    return re.compile(rf"www\.{re.escape(zone)}\s+\d+\s+IN\s+RRSIG\s+A\s")


def signed(folder, zone, lines):
    """Writes a zone and its signed form: the names of its two keys, and the line of its DS record."""
    keys = [run(["ldns-keygen", *kind, "-a", "ECDSAP256SHA256", zone], folder)[0] for kind in (["-k"], [])]
    with open(os.path.join(folder, file_of(zone)), "w", encoding="ascii") as file:
        file.write(HEAD.format(zone=zone) + f"{zone} 3600 IN NS ns.\n" + "".join(lines))
    sign(folder, zone, file_of(zone), keys)
    with open(os.path.join(folder, f"{keys[0]}.ds"), encoding="ascii") as file:
        return keys, " ".join(file.read().split()) + "\n"


def sign(folder, zone, name, keys):
    since, until = DAYS.get(zone, (-1, 30))
    run(["ldns-signzone", "-i", day(since), "-e", day(until), "-o", zone, name, *keys], folder)


def changed(folder, zone, change):
    """Changes the lines of a signed zone."""
    path = os.path.join(folder, f"{file_of(zone)}.signed")
    with open(path, encoding="ascii") as file:
        lines = file.readlines()
    made = change(lines)
    if made == lines:
        raise SystemExit(f"tools/try_show: nothing to change in {path}")
    with open(path, "w", encoding="ascii") as file:
        file.writelines(made)


def turn(line):
    """The signature's line with its last bit turned."""
    front, text = line.rstrip("\n").rsplit(None, 1)
    octets = bytearray(base64.b64decode(text))
    octets[-1] ^= 1
    return f"{front} {base64.b64encode(octets).decode()}\n"


def own_keys_alone(folder, zone, key):
    """The key set of a zone with its key-signing key alone, and that key's signature."""
    with open(os.path.join(folder, "alone"), "w", encoding="ascii") as file:
        file.write(HEAD.format(zone=zone))
    sign(folder, zone, "alone", [key])
    with open(os.path.join(folder, "alone.signed"), encoding="ascii") as file:
        return [line for line in file if OF_KEYS.match(line)]


def made(folder):
    """The file of each zone, and that of the root's key."""
    lines, files = ["ns. 3600 IN A 127.0.0.1\n"], {}
    for zone in NAMES:
        keys, ds = signed(folder, zone, [f"www.{zone} 3600 IN A 192.0.2.1\n"])
        if zone == "wrong.":
            ds = ds[:-2] + ("0" if ds[-2] != "0" else "1") + "\n"
        elif zone == "turned.":
            changed(folder, zone, lambda old: [turn(line) if of_address("turned.").match(line) else line for line in old])
        elif zone == "unsigned.":
            changed(folder, zone, lambda old: [line for line in old if not of_address("unsigned.").match(line)])
        elif zone == "keyless.":
            alone = own_keys_alone(folder, zone, keys[0])
            changed(folder, zone, lambda old: [line for line in old if not OF_KEYS.match(line)] + alone)
        lines += [f"{zone} 3600 IN NS ns.\n", ds]
        files[zone] = os.path.join(folder, f"{file_of(zone)}.signed")
    keys, _ = signed(folder, ".", lines)
    return files | {".": os.path.join(folder, "root.signed")}, os.path.join(folder, f"{keys[0]}.key")
