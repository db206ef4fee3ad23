"""The trust anchors of a recording: DS or DNSKEY records in zone format (RFC 4033, 5)."""
import hashlib
import os

import dns.exception
import dns.rdatatype
import dns.zonefile
import needed
import reading

ROOT_KEYS = ("/usr/share/dns/root.ds", "/usr/share/dns/root.key")
DIGESTS = {1: hashlib.sha1, 2: hashlib.sha256, 4: hashlib.sha384}
KINDS = (dns.rdatatype.DS, dns.rdatatype.DNSKEY)


def records_in(path):
    """Each DS and DNSKEY record of a file."""
    try:
        with open(path, encoding="utf-8") as file:
            rrsets = dns.zonefile.read_rrsets(file.read(), rdclass=None, default_ttl=0)
    except (OSError, UnicodeDecodeError, dns.exception.DNSException) as error:
        needed.stop(f"no anchors can be read from {path}: {error}")
    kept = [reading.Record(tuple(rrset.name.labels[:-1]), int(rrset.rdtype), int(rrset.rdclass), 0, rdata.to_wire())
            for rrset in rrsets for rdata in rrset if rrset.rdtype in KINDS]
    return kept or needed.stop(f"{path} has neither a DS nor a DNSKEY record")


def default_file():
    path = next(filter(os.path.exists, ROOT_KEYS), None)
    return path or needed.stop("no keys of the root; install them (Debian: apt-get install dns-root-data), or give --anchor FILE")


def covers(ds_record, key_record):
    """Whether a DS record is of a key: by owner, algorithm, tag and digest (RFC 4034, 5.1.4)."""
    ds, key = reading.ds_of(ds_record), reading.dnskey_of(key_record)
    if None in (ds, key) or (ds.algorithm, ds.tag) != (key.algorithm, key.tag) or ds.digest_type not in DIGESTS:
        return False
    owner = reading.folded(ds_record.owner)
    covered = reading.wire(owner) + key_record.rdata
    return owner == reading.folded(key_record.owner) and DIGESTS[ds.digest_type](covered).digest() == ds.digest


def anchored_keys(records, told):
    """Owner and key of each anchor. `told` gives the DNSKEY records of an owner; it is asked for the keys that DS records cover."""
    found = [record for record in records if reading.dnskey_of(record)]
    of_ds = [record for record in records if reading.ds_of(record)]
    for owner in dict.fromkeys(reading.folded(record.owner) for record in of_ds):
        found += [key for key in told(owner) if any(covers(ds, key) for ds in of_ds)]
    return list(dict.fromkeys((reading.folded(record.owner), reading.dnskey_of(record)) for record in found))
