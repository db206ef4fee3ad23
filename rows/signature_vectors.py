#!/usr/bin/env python3
"""Writes `rows/signatures.txt`: signatures by RSA and ECDSA with what a verifier has to say of each, from outside sources.

    python3 rows/signature_vectors.py WYCHEPROOF NIST > rows/signatures.txt

WYCHEPROOF is the folder `src/third_party/wycheproof_testvectors` of Debian's source package android-platform-external-boringssl; NIST is the folder
`cryptography_vectors/asymmetric` of Debian's package python3-cryptography-vectors. The signatures of RFC 5702, 6, and RFC 6605, 6, are in
`tools/signatures`, since they are over records."""
import json
import os
import re
import sys

RSA = {"SHA-1": 5, "SHA-256": 8, "SHA-512": 10}
ECDSA = {"secp256r1": (13, 32), "secp384r1": (14, 48)}
# what Wycheproof calls acceptable is good here, but for a DER that lacks the NULL of the digest's parameters, which RFC 8017, 9.2 asks for, and for
# signatures of another length than RFC 6605, 4 has
REFUSED = {"MissingNull", "SigSize"}
MOST_EXPONENT = (1 << 34) - 1


def octets(number):
    return number.to_bytes((number.bit_length() + 7) // 8 or 1, "big")


def rsa_key(exponent, modulus):
    """A DNSKEY's public key (RFC 3110, 2)."""
    e, n = octets(exponent), octets(modulus)
    return (bytes([len(e)]) if len(e) < 256 else b"\0" + len(e).to_bytes(2, "big")) + e + n


def is_bounded(algorithm, exponent, modulus):
    return exponent <= MOST_EXPONENT and (1_024 if algorithm == 10 else 505) <= modulus.bit_length() <= 4_096


def is_good(case):
    return case["result"] == "valid" or case["result"] == "acceptable" and not REFUSED & set(case["flags"])


class Table:
    def __init__(self):
        self.key = None

    def source(self, text):
        print(f"# {text}")

    def put(self, algorithm, key, is_accepted, data, signature):
        if (algorithm, key) != self.key:
            self.key = algorithm, key
            print(f"key {algorithm} {key.hex() or '-'}")
        print(f"{'accepted' if is_accepted else 'refused'} {data.hex() or '-'} {signature.hex() or '-'}")


def wycheproof_rsa(table, folder, name):
    with open(os.path.join(folder, name), encoding="utf-8") as file:
        read = json.load(file)
    table.source(f"Wycheproof, {name}: {read['numberOfTests']} cases")
    for group in read["testGroups"]:
        algorithm = RSA.get(group["sha"])
        exponent, modulus = int(group["e"], 16), int(group["n"], 16)
        if algorithm is None or not is_bounded(algorithm, exponent, modulus):
            continue
        for case in group["tests"]:
            table.put(algorithm, rsa_key(exponent, modulus), is_good(case), bytes.fromhex(case["msg"]), bytes.fromhex(case["sig"]))


def wycheproof_ecdsa(table, folder, name):
    with open(os.path.join(folder, name), encoding="utf-8") as file:
        read = json.load(file)
    table.source(f"Wycheproof, {name}: {read['numberOfTests']} cases")
    for group in read["testGroups"]:
        algorithm, size = ECDSA[group["key"]["curve"]]
        point = bytes.fromhex(group["key"]["uncompressed"])
        for case in group["tests"]:
            table.put(algorithm, point[1:], is_good(case), bytes.fromhex(case["msg"]), bytes.fromhex(case["sig"]))


def nist_rsa(table, path):
    table.source("NIST CAVP, SigVer15_186-3.rsp: those with SHA-1, SHA-256 and SHA-512 within the bounds")
    modulus, fields = None, {}
    for line in open(path, encoding="utf-8"):
        found = re.match(r"(\w+) = (.*)", line.strip())
        if not found:
            continue
        name, value = found.groups()
        if name == "n":
            modulus = int(value, 16)
        fields[name] = value
        if name == "Result":
            algorithm = {"SHA1": 5, "SHA256": 8, "SHA512": 10}.get(fields["SHAAlg"])
            exponent = int(fields["e"], 16)
            if algorithm and is_bounded(algorithm, exponent, modulus):
                table.put(algorithm, rsa_key(exponent, modulus), value.startswith("P"), bytes.fromhex(fields["Msg"]), bytes.fromhex(fields["S"]))


def nist_ecdsa(table, path):
    table.source("NIST CAVP, SigVer.rsp of FIPS 186-3: P-256 with SHA-256, P-384 with SHA-384")
    used, size, algorithm, fields = False, 0, 0, {}
    for line in open(path, encoding="utf-8"):
        section = re.match(r"\[(P-\d+),(SHA-\d+)\]", line.strip())
        if section:
            used = section.groups() in (("P-256", "SHA-256"), ("P-384", "SHA-384"))
            algorithm, size = (13, 32) if section.group(1) == "P-256" else (14, 48)
        found = re.match(r"(\w+) = (.*)", line.strip())
        if not (used and found):
            continue
        fields[found.group(1)] = found.group(2)
        if found.group(1) == "Result":
            numbers = [int(fields[name], 16) for name in ("Qx", "Qy", "R", "S")]
            x, y, r, s = (number.to_bytes(size, "big") for number in numbers)
            table.put(algorithm, x + y, fields["Result"].startswith("P"), bytes.fromhex(fields["Msg"]), r + s)


def main(words):
    if len(words) != 2:
        sys.exit(__doc__)
    folder, nist = words
    print("# Signatures by RSA and ECDSA, made by rows/signature_vectors.py. `key ALGORITHM KEY` holds for the lines after it; a line is `accepted` or")
    print("# `refused`, the bytes that were signed, and the signature; `-` is no byte.")
    table = Table()
    for name in ("rsa_signature_2048_sha256_test.json", "rsa_sig_gen_misc_test.json"):
        wycheproof_rsa(table, folder, name)
    for name in ("ecdsa_secp256r1_sha256_p1363_test.json", "ecdsa_secp384r1_sha384_p1363_test.json"):
        wycheproof_ecdsa(table, folder, name)
    nist_rsa(table, os.path.join(nist, "RSA/FIPS_186-2/SigVer15_186-3.rsp"))
    nist_ecdsa(table, os.path.join(nist, "ECDSA/FIPS_186-3/SigVer.rsp"))


if __name__ == "__main__":
    main(sys.argv[1:])
