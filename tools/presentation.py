"""Records, keys and times as people who know DNS write them: presentation form (RFC 1035, 5.1; RFC 3597, 5; RFC 4034; RFC 5155).

Names are tuples of labels and records those of `rows/reading.py`, which reads names, bitmaps and rdatas for this module too."""
import base64
import datetime
import re
import socket

import reading
from reading import Fault, class_word, dnskey_of, ds_of, rrsig_of, type_word

IN = 1
SEP, ZONE_KEY, REVOKED = 0x0001, 0x0100, 0x0080
# the registries of IANA: "DNS Security Algorithm Numbers", "Digest Algorithms", "DNS RCODEs"
ALGORITHMS = {1: "RSAMD5", 3: "DSA", 5: "RSASHA1", 6: "DSA-NSEC3-SHA1", 7: "RSASHA1-NSEC3-SHA1", 8: "RSASHA256", 10: "RSASHA512",
              12: "ECC-GOST", 13: "ECDSAP256SHA256", 14: "ECDSAP384SHA384", 15: "ED25519", 16: "ED448"}
DIGESTS = {1: "SHA-1", 2: "SHA-256", 3: "GOST R 34.11-94", 4: "SHA-384"}
CODES = {0: "NOERROR", 1: "FORMERR", 2: "SERVFAIL", 3: "NXDOMAIN", 4: "NOTIMP", 5: "REFUSED", 6: "YXDOMAIN", 7: "YXRRSET",
         8: "NXRRSET", 9: "NOTAUTH", 10: "NOTZONE", 16: "BADVERS", 17: "BADKEY", 18: "BADTIME", 19: "BADMODE", 20: "BADNAME",
         21: "BADALG", 22: "BADTRUNC", 23: "BADCOOKIE"}


# ---- words

def algorithm_text(number):
    return ALGORITHMS.get(number, f"algorithm {number}")


def digest_text(number):
    return DIGESTS.get(number, f"digest type {number}")


def code_text(number):
    return CODES.get(number, f"code {number}")


def moment_of(seconds):
    """Seconds since 1970 as a time; a signature's have 32 bits, and are taken to be before 2106."""
    return datetime.datetime(1970, 1, 1) + datetime.timedelta(seconds=seconds)


def time_text(seconds):
    """In UTC; as a number where the calendar ends."""
    try:
        return f"{moment_of(seconds):%Y-%m-%d %H:%M:%S} UTC"
    except OverflowError:
        return f"{seconds} seconds after 1970"


def name_text(name):
    """What has a meaning of its own in a zone file is escaped as well."""
    return re.sub(r'["();@$]', r"\\\g<0>", reading.shown(name))


# ---- rdatas

def string_text(octets):
    def letter(byte):
        if chr(byte) in '"\\':
            return "\\" + chr(byte)
        return chr(byte) if 0x20 <= byte <= 0x7E else f"\\{byte:03}"
    return '"' + "".join(map(letter, octets)) + '"'


class Fields:
    """Takes the fields of an rdata from left to right, each as its text."""

    def __init__(self, rdata):
        self.reader, self.end = reading.Reader(rdata), len(rdata)

    def is_read(self):
        return self.reader.place == self.end

    def rest(self):
        return self.reader.take(self.end - self.reader.place)

    def number(self, size):
        return str(self.reader.number(size))

    def numbers(self, *sizes):
        return " ".join(map(self.number, sizes))

    def name(self):
        return name_text(self.reader.name())

    def counted(self):
        """The octets of a field with its length before it."""
        return self.reader.field("s", self.end)[1:]

    def kind(self):
        return type_word(self.reader.number(2))

    def time(self):
        """RFC 4034, 3.2."""
        return f"{moment_of(self.reader.number(4)):%Y%m%d%H%M%S}"

    def hexadecimal(self):
        return self.rest().hex().upper()

    def base64(self):
        return base64.b64encode(self.rest()).decode()

    def kinds(self):
        """The words of the types in a bitmap (RFC 4034, 4.1.2)."""
        bitmap, words = self.reader.bitmap(self.end), []
        while bitmap:
            window, size = bitmap[0], bitmap[1]
            bits = int.from_bytes(bitmap[2:2 + size], "big")
            words += [type_word(window << 8 | bit) for bit in range(8 * size) if bits >> (8 * size - 1 - bit) & 1]
            bitmap = bitmap[2 + size:]
        return " ".join(words)

    def hashed(self):
        """RFC 5155, 3.3."""
        return base64.b32hexencode(self.counted()).decode().rstrip("=").lower()

    def strings(self):
        texts = [string_text(self.counted())]
        while not self.is_read():
            texts.append(string_text(self.counted()))
        return " ".join(texts)


def address(family, size):
    return lambda fields: socket.inet_ntop(family, fields.reader.take(size))


# each type's fields, in their order
FORMS = {
    "A": (address(socket.AF_INET, 4),),
    "AAAA": (address(socket.AF_INET6, 16),),
    "NS": (Fields.name,), "CNAME": (Fields.name,), "PTR": (Fields.name,), "DNAME": (Fields.name,),
    "SOA": (Fields.name, Fields.name, lambda fields: fields.numbers(4, 4, 4, 4, 4)),
    "MX": (lambda fields: fields.number(2), Fields.name),
    "TXT": (Fields.strings,),
    "SRV": (lambda fields: fields.numbers(2, 2, 2), Fields.name),
    "DS": (lambda fields: fields.numbers(2, 1, 1), Fields.hexadecimal),
    "DNSKEY": (lambda fields: fields.numbers(2, 1, 1), Fields.base64),
    "RRSIG": (Fields.kind, lambda fields: fields.numbers(1, 1, 4), Fields.time, Fields.time, lambda fields: fields.number(2),
              Fields.name, Fields.base64),
    "NSEC": (Fields.name, Fields.kinds),
    "NSEC3": (lambda fields: fields.numbers(1, 1, 2), lambda fields: fields.counted().hex() or "-", Fields.hashed, Fields.kinds),
}


def rdata_text(record):
    """An rdata without its type's shape, and one of a type that isn't in the table, is written as octets (RFC 3597, 5)."""
    form = FORMS.get(type_word(record.kind)) if record.klass == IN else None
    if form and record.rdata:
        fields = Fields(record.rdata)
        try:
            texts = [field(fields) for field in form]
        except Fault:
            texts = None
        if texts and fields.is_read():
            return " ".join(text for text in texts if text)
    return f"\\# {len(record.rdata)} {record.rdata.hex()}".rstrip()


def front_text(record):
    """All of a record but its rdata."""
    ttl = [] if record.ttl is None else [str(record.ttl)]
    return " ".join([name_text(record.owner), *ttl, class_word(record.klass), type_word(record.kind)])


def record_text(record):
    return f"{front_text(record)} {rdata_text(record)}"


def set_text(owner, kind):
    return f"{name_text(owner)} {type_word(kind)}"


# ---- keys, DS records and signatures in words

def key_roles(key):
    """What the flags of a key say (RFC 4034, 2.1.1; RFC 5011, 3)."""
    roles = [word for flag, word in ((SEP, "SEP"), (REVOKED, "revoked")) if key.flags & flag]
    return roles if key.flags & ZONE_KEY else [*roles, "no zone key"]


def by_tag(tag, algorithm):
    return f"key {tag} ({algorithm_text(algorithm)})"


def key_text(record):
    key = dnskey_of(record)
    return by_tag(key.tag, key.algorithm)


def ds_text(record):
    ds = ds_of(record)
    return f"DS record {ds.tag} ({algorithm_text(ds.algorithm)}, {digest_text(ds.digest_type)})"


def signature_of(record):
    """The fields of an RRSIG record, or None where it has others."""
    try:
        return rrsig_of(record)
    except Fault:
        return None
