"""Sessions of several zones, and what is found in their outputs: for `walk.py` and `unsigned.py`, which have the rows.

Zones are lists of labels, and a key is its rdata, as `texts.py` has them."""
import hashlib
import os

import model
import reading
import texts
from texts import DNSKEY, DS, KEY, Record, Signed, key_tag, number

ROOT = []
SHA_1, SHA_256, SHA_384 = 1, 2, 4
DIGESTS = {SHA_1: hashlib.sha1, SHA_256: hashlib.sha256, SHA_384: hashlib.sha384}
PLAIN, TRAIL = ("validate",), ("validate", "trail")


def ds_of(owner, key, digest_type=SHA_256, tag=None, algorithm=None, digest=None):
    """RFC 4034, 5.1. Given are the parts that aren't those of the key."""
    covered = texts.wire(texts.folded(owner)) + key
    made = digest or DIGESTS.get(digest_type, hashlib.sha256)(covered).digest()
    return number(key_tag(key) if tag is None else tag, 2) + number(algorithm or key[3], 1) + number(digest_type, 1) + made


class Opt:
    """RFC 6891, 6.1.2: a payload of 1232 bytes, DO."""
    def wire(self, written):
        return written(ROOT) + bytes.fromhex("002904d0000080000000")


class Scene:
    """Anchors, accepted signatures and replies, as a session has them. The root has one key, which is anchored, if it isn't said
    otherwise."""

    def __init__(self, *anchors, is_packed=False, algorithms=(13,)):
        self.anchors = [texts.anchor(key, zone) for zone, key in anchors or [(ROOT, KEY)]]
        self.accepts, self.replies, self.further = [], [], ()
        self.is_packed, self.algorithms = is_packed, algorithms

    def signed(self, records, key, signer, signature=texts.SIGNATURE, is_accepted=True, labels=None):
        one = Signed(records, key, signature, signer, labels)
        if is_accepted:
            self.accepts.append(one.accept())
        return one.section()

    def says(self, name, kind, *parts, authorities=(), additionals=(), code=0, word="reply"):
        answers = [record for part in parts for record in part]
        octets = texts.message(name, kind, answers, (*self.further, *additionals), authorities, self.is_packed, code)
        self.replies.append(texts.reply(name, kind, octets, word))

    def fails(self, name, kind, fault):
        self.replies.append(f"fault {texts.shown(name)} {texts.type_word(kind)} {fault}")

    def root(self):
        self.says(ROOT, DNSKEY, [Record(ROOT, DNSKEY, KEY)])

    def delegates(self, zone, rdatas, key=KEY, parent=ROOT, **how):
        """The parent's DS set of a zone, signed by the parent."""
        self.says(zone, DS, self.signed([Record(zone, DS, rdata) for rdata in rdatas], key, parent, **how))

    def has_keys(self, zone, keys, signing=None):
        """The zone's key set, signed by one of its keys or unsigned."""
        records = [Record(zone, DNSKEY, key) for key in keys]
        self.says(zone, DNSKEY, self.signed(records, signing, zone) if signing else records)

    def session(self, name, kind, depth=None, version=1):
        return texts.session(self.anchors, self.accepts, name, kind, self.replies, version, depth, self.algorithms)


# ---- what has to be found

def link_text(line):
    """A link: its word, its owner, the type of a signed set, and the links that it names."""
    word, owner, _, *rest = line.split(" ")
    named = {"anchored": [], "matched": rest[1:2], "keyset": rest[::2], "signed": rest[:2]}
    return " ".join([word, owner, *named[word]])


def found(lines):
    """What a row may say of an answer: lines of the trail, records without ttl and rdata, how many asks and chains there are, the
    links of each chain, and how the last step ended."""
    records = [line.split(" ") for line in lines if line.startswith(model.SECTIONS)]
    asks, chains = sum(line.startswith("step ") for line in lines), []
    for line in lines:
        if line.startswith("chain "):
            chains.append([])
        elif line.startswith(("anchored ", "matched ", "keyset ", "signed ")):
            chains[-1].append(link_text(line))
    marks = {" ".join((section, owner, kind, mark)) for section, owner, _, kind, _, mark, _ in records}
    last = [line for line in lines if line.startswith("ending ")][-1:]
    links = ["links " + ", ".join(chain) for chain in chains]
    return {*lines, *marks, f"asks {asks}", f"chains {len(chains)}", *links, *(f"last {line}" for line in last)}


def finds(session, says, words=PLAIN):
    """What the model has for the session, where it finds there all that the row says, and nothing that it says not to."""
    all_found = found(model.written(session, (b"validate", b"trail"))[0].decode().split("\n"))
    all_found.add(f"questions {model.Lookup(reading.session_in(session)).questions}")
    for said in says:
        assert (said.removeprefix("no ") in all_found) != said.startswith("no "), (said, all_found)
    out, status = model.written(session, [word.encode() for word in words])
    assert status == 0
    return out


def ends_with(session, line):
    """The line and the status, where the model has them too; it knows of no bad lines."""
    status = 3 if line.startswith("bad line") else 1
    ended = f"{line}\n".encode(), status
    assert status == 3 or model.written(session) == ended, (line, model.written(session))
    return ended


# ---- the files of rows

def files_of(make):
    """Each file's name and text. A row gives its session, and then what it says and the words, or the one line that is written."""
    name = make.__name__.replace("_", "-")
    session, *rest = make()
    yield f"{name}.session", session
    if len(rest) == 1:
        out, status = ends_with(session, rest[0])
        yield f"{name}.status", b"%d\n" % status
    else:
        says, words = rest
        out = finds(session, says, words)
        if words != PLAIN:
            yield f"{name}.words", "".join(word + "\n" for word in words).encode()
    yield f"{name}.out", out


def main(module, words):
    """Writes the files of a module's rows, or says whether they are those that it makes."""
    if words not in ([], ["--check"]):
        print(module.__doc__)
        return 2
    wrong = 0
    for name, text in (file for make in module.MADE for file in files_of(make)):
        path = os.path.join(model.FOLDER, name)
        if not words:
            with open(path, "wb") as file:
                file.write(text)
        elif model.read(path, None) != text:
            wrong = 1
            print(f"rows/{name}: isn't what rows/{os.path.basename(module.__file__)} makes: run it")
    return wrong
