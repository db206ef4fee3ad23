#!/usr/bin/env python3
"""Writes `rows/ed25519.txt`: keys and signatures of Ed25519 at the edges of RFC 8032, with what a verifier has to say of each and why.

    python3 rows/ed25519_vectors.py WYCHEPROOF > rows/ed25519.txt

WYCHEPROOF is the folder `src/third_party/wycheproof_testvectors` of Debian's source package android-platform-external-boringssl, of version 13.0.0+r24-2:
all 145 cases of its `eddsa_test.json` are here, each with the reason of its answer. The others are made by the affine law in `tools/edwards.py`,
and from numbers in place of secrets. TEST 1024 is of RFC 8032, 7.1."""
import hashlib
import json
import os
import sys

sys.dont_write_bytecode = True
sys.path.append(os.path.join(os.path.dirname(os.path.realpath(__file__)), "../tools"))
import edwards  # noqa: E402

CURVE = edwards.Edwards()
TEST_1024 = bytes.fromhex(
    "08b8b2b733424243760fe426a4b54908632110a66c2f6591eabd3345e3e4eb98fa6e264bf09efe12ee50f8f54e9f77b1e355f6c50544e23fb1433ddf73be84d8"
    "79de7c0046dc4996d9e773f4bc9efe5738829adb26c81b37c93a1b270b20329d658675fc6ea534e0810a4432826bf58c941efb65d57a338bbd2e26640f89ffbc"
    "1a858efcb8550ee3a5e1998bd177e93a7363c344fe6b199ee5d02e82d522c4feba15452f80288a821a579116ec6dad2b3b310da903401aa62100ab5d1a36553e"
    "06203b33890cc9b832f79ef80560ccb9a39ce767967ed628c6ad573cb116dbefefd75499da96bd68a8a97b928a8bbc103b6621fcde2beca1231d206be6cd9ec7"
    "aff6f6c94fcd7204ed3455c68c83f4a41da4af2b74ef5c53f1d8ac70bdcb7ed185ce81bd84359d44254d95629e9855a94a7c1958d1f8ada5d0532ed8a5aa3fb2"
    "d17ba70eb6248e594e1a2297acbbb39d502f1a8c6eb6f1ce22b3de1a1f40cc24554119a831a9aad6079cad88425de6bde1a9187ebb6092cf67bf2b13fd65f270"
    "88d78b7e883c8759d2c4f5c65adb7553878ad575f9fad878e80a0c9ba63bcbcc2732e69485bbc9c90bfbd62481d9089beccf80cfe2df16a2cf65bd92dd597b07"
    "07e0917af48bbb75fed413d238f5555a7a569d80c3414a8d0859dc65a46128bab27af87a71314f318c782b23ebfe808b82b0ce26401d2e22f04d83d1255dc51a"
    "ddd3b75a2b1ae0784504df543af8969be3ea7082ff7fc9888c144da2af58429ec96031dbcad3dad9af0dcbaaaf268cb8fcffead94f3c7ca495e056a9b47acdb7"
    "51fb73e666c6c655ade8297297d07ad1ba5e43f1bca32301651339e22904cc8c42f58c30c04aafdb038dda0847dd988dcda6f3bfd15c4b4c4525004aa06eeff8"
    "ca61783aacec57fb3d1f92b0fe2fd1a85f6724517b65e614ad6808d6f6ee34dff7310fdc82aebfd904b01e1dc54b2927094b2db68d6f903b68401adebf5a7e08"
    "d78ff4ef5d63653a65040cf9bfd4aca7984a74d37145986780fc0b16ac451649de6188a7dbdf191f64b5fc5e2ab47b57f7f7276cd419c17a3ca8e1b939ae49e4"
    "88acba6b965610b5480109c8b17b80e1b7b750dfc7598d5d5011fd2dcc5600a32ef5b52a1ecc820e308aa342721aac0943bf6686b64b2579376504ccc493d97e"
    "6aed3fb0f9cd71a43dd497f01f17c0e2cb3797aa2a2f256656168e6c496afc5fb93246f6b1116398a346f1a641f3b041e989f7914f90cc2c7fff357876e506b5"
    "0d334ba77c225bc307ba537152f3f1610e4eafe595f6d9d90d11faa933a15ef1369546868a7f3a45a96768d40fd9d03412c091c6315cf4fde7cb68606937380d"
    "b2eaaa707b4c4185c32eddcdd306705e4dc1ffc872eeee475a64dfac86aba41c0618983f8741c5ef68d3a101e8a3b8cac60c905c15fc910840b94c00a0b9d0"
)
TEST_1024_KEY = bytes.fromhex("278117fc144c72340f67d0f2316e8386ceffbf2b2428c9c51fef7c597f1d426e")
TEST_1024_SIGNATURE = bytes.fromhex(
    "0aab4c900501b3e24d7cdf4663326a3a87df5e4843b2cbdb67cbf6e460fec350aa5371b1508f9f4528ecea23c436d94b5e8fcd4f681e30a6ac00a9704a188a03"
)
SECRET, NONCE = 0x1234567 << 200 | 89, 0x7654321 << 199 | 98


def put(why, key, data, signature, wanted):
    if CURVE.is_good(key, data, signature) != wanted:
        raise SystemExit(f"{why}: not so")
    print(f"# {why}")
    print(f"key 15 {key.hex() or '-'}")
    print(f"{'accepted' if wanted else 'refused'} {data.hex() or '-'} {signature.hex() or '-'}")


def number(value):
    return value.to_bytes(32, "little")


def found(make):
    """The first key, bytes and signature of those made that are wanted."""
    return next(case for case in map(make, range(1000)) if case)


def torsion():
    """A point of order 8."""
    for y in range(2, 1000):
        point = CURVE.point(number(y))
        if point:
            point = CURVE.times(CURVE.n, point)
            if CURVE.times(4, point) != CURVE.neutral:
                return point
    raise SystemExit("none")


def bounds_of_s(key, data, signature):
    first, s = signature[:32], int.from_bytes(signature[32:], "little")
    put("S and the order: not below it", key, data, first + number(s + CURVE.n), False)
    put("S and the order twice", key, data, first + number(s + 2 * CURVE.n), False)
    put("S and the order fifteen times, which leaves no digit free", key, data, first + number(s + 15 * CURVE.n), False)
    put("the order less S", key, data, first + number(CURVE.n - s), False)
    # with R = -[k]A each S that is 0 modulo the order would do
    secret_key = CURVE.octets(CURVE.neutral)
    put("the key is the neutral point, R too, and S is 0: the equation holds", secret_key, data, secret_key + number(0), True)
    put("the same with the order as S", secret_key, data, secret_key + number(CURVE.n), False)
    put("the same with 2^252 as S", secret_key, data, secret_key + number(1 << 252), False)
    top = CURVE.n - 1
    put("S is the order less 1", secret_key, data, CURVE.octets(CURVE.times(top, CURVE.base())) + number(top), True)


def encodings(data):
    p, neutral = CURVE.p, CURVE.octets(CURVE.neutral)
    good = neutral + number(0)
    put("a key of p + 1 in place of y = 1: y is not below the prime", number(p + 1), data, good, False)
    put("R of p + 1 in place of y = 1", neutral, data, number(p + 1) + number(0), False)
    put("a key of y = 1 with the sign bit: x is 0", number(1 | 1 << 255), data, good, False)
    put("R of y = 1 with the sign bit", neutral, data, number(1 | 1 << 255) + number(0), False)
    put("a key of y = -1 with the sign bit: x is 0", number(p - 1 | 1 << 255), data, good, False)
    put("a key of y = p, which is 0", number(p), data, good, False)
    put("a key of p + 18, the most that 255 digits write", number(p + 18), data, good, False)
    put("a key of 2 in place of y, to which no x belongs", number(2), data, good, False)
    put("R of 2 in place of y", neutral, data, number(2) + number(0), False)


def small_orders(point):
    base = CURVE.base()
    for order in (2, 4, 8):
        small = CURVE.times(8 // order, point)
        key = CURVE.octets(small)

        def tried(count, holds):
            data = b"small order %d" % count
            first = CURVE.octets(CURVE.times(NONCE, base))
            signature = first + number(NONCE)
            return CURVE.is_good(key, data, signature) == holds and (key, data, signature)

        put(f"a key of order {order}, of which k is a multiple: the equation holds", *found(lambda count: tried(count, True)), True)
        put(f"a key of order {order}, of which k is none: the equation holds only with the cofactor", *found(lambda count: tried(count, False)), False)
    key, signature = CURVE.signed(SECRET, b"", NONCE)
    small = CURVE.octets(CURVE.times(4, point))
    put("R of order 2 under another key", key, b"", small + signature[32:], False)


def mixed_orders(point):
    base = CURVE.base()
    key = CURVE.octets(CURVE.add(CURVE.times(SECRET, base), point))

    def tried(count, modulo, whole):
        """By k modulo 8 before and after the order is taken away."""
        data = b"mixed order %d" % count
        first = CURVE.octets(CURVE.times(NONCE, base))
        k = int.from_bytes(hashlib.sha512(first + key + data).digest(), "little")
        s = (NONCE + k * SECRET) % CURVE.n
        return ((k % CURVE.n % 8 == 0) is modulo and (k % 8 == 0) is whole) and (key, data, first + number(s))

    put("a key with a part of order 8, and k modulo the order a multiple of 8", *found(lambda count: tried(count, True, False)), True)
    put("the same where k is a multiple of 8 only before the order is taken away", *found(lambda count: tried(count, False, True)), False)
    put("the same where it's none: the equation holds only with the cofactor", *found(lambda count: tried(count, False, False)), False)
    key_alone = CURVE.octets(CURVE.times(SECRET, base))
    first = CURVE.octets(CURVE.add(CURVE.times(NONCE, base), point))
    s = (NONCE + CURVE.challenge(first, key_alone, b"") * SECRET) % CURVE.n
    put("R with a part of order 8: the equation holds only with the cofactor", key_alone, b"", first + number(s), False)


def digests(data):
    """The digest's parts in other orders, other digests, and k that is not reduced by the order but by another number."""
    base = CURVE.base()
    key = CURVE.octets(CURVE.times(SECRET, base))
    first = CURVE.octets(CURVE.times(NONCE, base))

    def signed(digest, order="little"):
        return first + number((NONCE + int.from_bytes(digest, order) * SECRET) % CURVE.n)

    whole = hashlib.sha512(first + key + data).digest()
    put("the digest of R, key and bytes", key, data, signed(whole), True)
    put("the digest of key, R and bytes", key, data, signed(hashlib.sha512(key + first + data).digest()), False)
    put("the digest of bytes, R and key", key, data, signed(hashlib.sha512(data + first + key).digest()), False)
    put("the digest of R and bytes alone", key, data, signed(hashlib.sha512(first + data).digest()), False)
    put("the digest by SHA-256", key, data, signed(hashlib.sha256(first + key + data).digest()), False)
    put("the digest read from its other end", key, data, signed(whole, "big"), False)
    put("the digest's first half alone", key, data, signed(whole[:32]), False)
    put("the digest with the prefix of Ed25519ctx", key, data,
        signed(hashlib.sha512(b"SigEd25519 no Ed25519 collisions\0\0" + first + key + data).digest()), False)


def of_point(name, octets):
    """Why these 32 bytes are no point, if they are none (RFC 8032, 5.1.3)."""
    value = int.from_bytes(octets, "little")
    if value % 2**255 >= CURVE.p:
        return [f"{name}'s y isn't below the prime"]
    if CURVE.point(octets) is None:
        return [f"{name}'s x is 0, and its sign bit is 1" if value % 2**255 in (1, CURVE.p - 1) else f"no x belongs to {name}'s y"]
    return []


def reason(key, data, signature):
    """Why a signature is accepted or refused: what RFC 8032, 5.1.7 tests of it, in that order."""
    if len(signature) != 64:
        return f"a signature of {len(signature)} bytes" if signature else "no signature"
    first, s = signature[:32], int.from_bytes(signature[32:], "little")
    faults = of_point("R", first) + (["S isn't below the order"] if s >= CURVE.n else []) + of_point("the key", key)
    if faults:
        return ", and ".join(faults)
    made = CURVE.times(s, CURVE.base())
    wanted = CURVE.add(CURVE.point(first), CURVE.times(CURVE.challenge(first, key, data), CURVE.point(key)))
    if made == wanted:
        return "the equation holds"
    is_cofactor = CURVE.times(8, made) == CURVE.times(8, wanted)
    return "the equation holds only with the cofactor" if is_cofactor else "the equation doesn't hold, not even with the cofactor"


def wycheproof(folder):
    """Wycheproof's cases, each by its number there, what is said of it there, and the reason of its answer."""
    with open(os.path.join(folder, "eddsa_test.json"), encoding="utf-8") as file:
        groups = json.load(file)["testGroups"]
    for group in groups:
        key = bytes.fromhex(group["key"]["pk"])
        for case in group["tests"]:
            data, signature = bytes.fromhex(case["msg"]), bytes.fromhex(case["sig"])
            said = f"{case['result']}, {case['comment'].strip()}".rstrip(", ")
            put(f"Wycheproof, eddsa_test.json, {case['tcId']} ({said}): {reason(key, data, signature)}", key, data, signature, case["result"] == "valid")


def main(words):
    if len(words) != 1:
        sys.exit(__doc__)
    print("# Keys and signatures of Ed25519, made by rows/ed25519_vectors.py, each after the reason of its answer. Lines are as in rows/signatures.txt.")
    data = b"some signed bytes"
    put("RFC 8032, 7.1, TEST 1024", TEST_1024_KEY, TEST_1024, TEST_1024_SIGNATURE, True)
    key, signature = CURVE.signed(SECRET, data, NONCE)
    put("a good signature", key, data, signature, True)
    put("the key's other point, with this y", key[:31] + bytes([key[31] ^ 128]), data, signature, False)
    put("the other R with this y", key, data, signature[:31] + bytes([signature[31] ^ 128]) + signature[32:], False)
    put("S and R exchanged", key, data, signature[32:] + signature[:32], False)
    put("a key of 31 bytes", key[:31], data, signature, False)
    put("a key of 33 bytes", key + b"\0", data, signature, False)
    put("a signature of 63 bytes", key, data, signature[:63], False)
    put("a signature of 65 bytes", key, data, signature + b"\0", False)
    put("no signature", key, data, b"", False)
    put("no key", b"", data, signature, False)
    bounds_of_s(key, data, signature)
    encodings(data)
    point = torsion()
    small_orders(point)
    mixed_orders(point)
    digests(data)
    wycheproof(words[0])


if __name__ == "__main__":
    main(sys.argv[1:])
