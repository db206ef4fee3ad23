"""How a judged step ends, for `model.py`: the table of answers (RFC 4035, 3.1.3, 5.3.4 and 5.4; RFC 5155, 8).

An answer is a record at the name that is asked, of the type or a CNAME."""
import denial
import hashes
from reading import folded, is_above, num_labels, rrsig_of
from report import INSECURE, SIGNED

CNAME, DS, RRSIG, NSEC, NSEC3 = 5, 43, 46, 47, 50


def ending(step, is_insecure):
    """The first row that holds. `is_insecure` searches for the zone of a name, and says whether it is Insecure."""
    answered = answered_by(step)
    is_plain = not any(is_wildcard_signature(record) for record in step.message.sections[0])
    excused = "absent insecure" if answered == denial.NO else "none"
    if is_plain and is_insecure_above(step):
        return excused
    signers = signers_of(secure_denials(step))
    hashing = signers_of(secure_denials(step, NSEC3))
    if hashing:
        proof = hashes.BOGUS if signers or len(hashing) > 1 else hashes.verdict(
            step.name, step.kind, hashing.pop(), step.message.code, answered, secure_nsec3s(step))
        return denied(answered) if proof == hashes.SECURE else f"denied {proof}"
    if signers:
        is_denied = len(signers) == 1 and denial.is_denied(
            step.name, step.kind, signers.pop(), step.message.code, answered, secure_nsecs(step))
        return denied(answered) if is_denied else "denied bogus"
    if any(rrset.section == "answer" and labels_of_expansion(rrset) is not None for rrset in step.sets):
        return "denied bogus"
    if answered != denial.NO and is_plain:
        return "none"
    return excused if is_insecure(step.name[1:] if step.kind == DS else step.name) else "denied bogus"


def denied(answered):
    return "absent secure" if answered == denial.NO else "expanded secure"


def is_set(rrset, owner, kind):
    """In the answer section."""
    return rrset.section == "answer" and rrset.kind == kind and folded(rrset.owner) == folded(owner)


def is_wildcard_signature(record):
    sig = rrsig_of(record)
    return sig is not None and sig.labels < num_labels(record.owner)


def decider_of(rrset):
    """The signature by which a set is Secure or Insecure, where one decided."""
    return None if rrset.place is None else rrsig_of(rrset.signatures[rrset.place])


def labels_of_expansion(rrset):
    """The labels of the signature by which a set is Secure, where they are fewer than the owner's; else None."""
    sig = decider_of(rrset) if rrset.mark == SIGNED else None
    return sig.labels if sig and sig.labels < num_labels(rrset.owner) else None


def answered_by(step):
    """Whether a record of the type or a CNAME answers at the name, and by the fewest labels of an expansion that is Secure."""
    those = [one for one in step.message.sections[0] if one.kind in (step.kind, CNAME) and folded(one.owner) == folded(step.name)]
    sets = [one for one in step.sets if any(is_set(one, step.name, kind) for kind in (step.kind, CNAME))]
    expanded = [labels_of_expansion(one) for one in sets if labels_of_expansion(one) is not None]
    return denial.NO if not those else min(expanded) if expanded else denial.PLAIN


def is_insecure_above(step):
    """The authority section has a record, and all are Insecure and stand at the name or above it; signatures aside."""
    records = [record for record in step.message.sections[1] if record.kind != RRSIG]
    sets = [one for one in step.sets if one.section == "authority" and one.mark == INSECURE]
    return bool(records) and sum(len(one.records) for one in sets if is_above(one.owner, step.name)) == len(records)


def secure_denials(step, kind=NSEC):
    return [one for one in step.sets if one.section == "authority" and one.kind == kind and one.mark == SIGNED]


def signers_of(sets):
    return {folded(decider_of(rrset).signer) for rrset in sets}


def secure_nsecs(step):
    """The Secure NSEC records of the authority section that can be read."""
    return [nsec for one in secure_denials(step) for nsec in map(denial.nsec_of, one.records) if nsec]


def secure_nsec3s(step):
    """The same of NSEC3 records."""
    return [nsec3 for one in secure_denials(step, NSEC3) for nsec3 in map(hashes.nsec3_of, one.records) if nsec3]


def is_unsigned_cut(nsec, zone):
    """The record is of a delegation to the zone, and says that there is no DS."""
    return folded(nsec.owner) == folded(zone) and denial.is_cut(nsec) and DS not in nsec.types
