"""Which signatures of DNSSEC can be tested: those of RSA, ECDSA and Ed25519 by `dns_measure signatures`, whose arithmetic is proved; those
of Ed448 by python3-cryptography, where it is installed.

A key is the public key of a DNSKEY record, a signature that of an RRSIG, as they stand on the wire."""
COMPUTED = (5, 7, 8, 10, 13, 14, 15)
try:
    from cryptography.exceptions import InvalidSignature, UnsupportedAlgorithm
    from cryptography.hazmat.primitives.asymmetric import ed448
except ImportError:
    EDWARDS = {}
else:
    EDWARDS = {16: ed448.Ed448PublicKey}
ALGORITHMS = sorted([*COMPUTED, *EDWARDS])


def is_by_edwards(algorithm, key, octets, signature):
    """Whether the signature of the octets is one by a key of Ed448 (RFC 8080, 3 and 4)."""
    if algorithm not in EDWARDS:
        return False
    try:
        EDWARDS[algorithm].from_public_bytes(key).verify(signature, octets)
    except (InvalidSignature, UnsupportedAlgorithm, ValueError):
        return False
    return True
