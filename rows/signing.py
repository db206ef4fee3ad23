"""What signatures are over, and when they hold, for `model.py` and `rolling.py`."""
import reading
from reading import folded, num_labels

IN = 1


def serial_at_or_before(first, second):
    """RFC 1982, 3.2."""
    return (second - first) % 2**32 < 2**31


def signed_bytes(rrset, sig):
    """RFC 4034, 3.1.8.1."""
    owner = folded(rrset.owner)
    if num_labels(owner) > sig.labels:
        owner = (b"*", *owner[len(owner) - sig.labels:])
    front = reading.wire(owner) + rrset.kind.to_bytes(2, "big") + IN.to_bytes(2, "big") + sig.ttl.to_bytes(4, "big")
    rdatas = sorted({reading.canonical_rdata(record) for record in rrset.records})
    return sig.front + b"".join(front + len(rdata).to_bytes(2, "big") + rdata for rdata in rdatas)
