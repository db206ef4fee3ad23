"""The keys that `dns_check roll` writes, for `tools/show`: each as a DNSKEY record with its tag."""
import reading
from presentation import key_roles, key_text, record_text
from report_lines import BadLine

DNSKEY, IN, SHORTEST = 48, 1, 4


def is_rolled(octets):
    return octets.startswith(b"trusted ")


def zone_in(octets):
    """The zone of a text of sightings."""
    return reading.name_in(next(line.split(" ")[1] for line in octets.decode("latin-1").split("\n") if line.startswith("zone ")))


def keys_in(octets, zone):
    """The records of the trusted keys of a zone; a ttl isn't told."""
    *lines, last = octets.decode("latin-1").split("\n")
    keys = []
    for number, line in enumerate([*lines, *([last] if last else [])], 1):
        word, _, rdata = line.partition(" ")
        try:
            keys.append(reading.Record(zone, DNSKEY, IN, None, bytes.fromhex(rdata)))
        except ValueError as error:
            raise BadLine(number, "a key") from error
        if word != "trusted" or len(keys[-1].rdata) < SHORTEST:
            raise BadLine(number, "a trusted key")
    return keys


def text_of(keys):
    """In zone format, with the tag behind each."""
    return "".join(f"{record_text(key)} ; {key_text(key)}{''.join(f', {role}' for role in key_roles(reading.dnskey_of(key)))}\n" for key in keys)


def value_of(keys):
    return [{"tag": reading.dnskey_of(key).tag, "record": record_text(key)} for key in keys]
