"""What we write the peers read, what they write we read, and bundles, each with equal bytes."""
import collections
import itertools

import tools
from oracle import family_of
from ours import STYLES

BUNDLE_COUNTS = [1, 2, 5, 40]
BUNDLES = "bundles of 1 to 40 certificates"
CHAIN_KEYS = ["RSA", "P-256", "Ed25519", "P-384", "Ed448"]
REMAINDERS = {0, 1, 2}
LONG = 65_536
EVERY_REMAINDER = [tools.CERTIFICATE, tools.REQUEST, tools.CRL, tools.PKCS7, tools.PUBLIC_KEY, tools.PRIVATE_KEY]


class Tally:
    """Counts of what agreed by claim and thing, notes worth printing, and what did not agree."""

    def __init__(self):
        self.counts = collections.defaultdict(collections.Counter)
        self.notes = []
        self.failures = []

    def check(self, claim, thing, got, wanted, detail=""):
        """Counts the thing under the claim if the two are equal."""
        if got == wanted:
            self.counts[claim][thing] += 1
        else:
            self.failures.append(f"{claim}: {thing} {detail}: got {shortened(got)}, wanted {shortened(wanted)}")

    def note(self, text):
        if text not in self.notes:
            self.notes.append(text)

    def attempt(self, call, *given):
        """What a call gives, or None, counted as a failure, where a tool refuses."""
        try:
            return call(*given)
        except tools.Refused as error:
            self.failures.append(f"refused: {error}")
            return None


def shortened(value, most=300):
    text = repr(value)
    return text if len(text) <= most else text[:most] + "..."


def pairs(peers, things):
    """Each peer with each thing that it knows."""
    return [(peer, thing) for thing in things for peer in peers if thing.kind in peer.commands]


def written_by_us(tally, ours, peers, things):
    for peer, thing in pairs(peers, things):
        for style in peer.styles:
            read_by_peer(tally, peer, thing, style, ours.write(tools.LABELS[thing.kind], thing.data, style))


def read_by_peer(tally, peer, thing, style, text):
    """The peer's DER of our PEM is the DER. Where it writes keys anew, it is what the peer makes of the DER itself."""
    got = tally.attempt(peer.convert, thing.kind, text, tools.PEM, tools.DER)
    wanted = thing.data
    if thing.kind in peer.anew:
        wanted = tally.attempt(peer.convert, thing.kind, thing.data, tools.DER, tools.DER)
        tally.note(f"{peer.name} writes {thing.kind} anew, so what it made of our PEM was compared with what it "
                   "made of the DER")
    if got is not None and wanted is not None:
        tally.check(f"{peer.name} read what we wrote with {style}", thing.kind, got, wanted, thing.name)


def written_by_peers(tally, ours, peers, things):
    for peer, thing in pairs([peer for peer in peers if peer.writes], things):
        read_by_us(tally, ours, peer, thing)


def read_by_us(tally, ours, peer, thing):
    """The peer's PEM has, under each grammar, the label on its first line and the peer's own DER."""
    text = tally.attempt(peer.convert, thing.kind, thing.data, tools.DER, tools.PEM)
    data = tally.attempt(peer.convert, thing.kind, thing.data, tools.DER, tools.DER)
    if text is None or data is None:
        return
    label = text.split(b"-----")[1].removeprefix(b"BEGIN ")
    if label != tools.LABELS[thing.kind]:
        tally.note(f"{peer.name} was given {thing.kind} and wrote some or all under the label {label.decode()}")
    wanted = [(0, 0, [(label, data)])] * 3
    tally.check(f"we read what {peer.name} wrote, under each grammar", thing.kind, ours.under_each(ours.read, text),
                wanted, thing.name)
    tally.check(f"we found LF alone in what {peer.name} wrote", thing.kind, ours.style(text), STYLES["LF"], thing.name)
    tally.check(f"we told the family of what {peer.name} wrote, under each grammar", thing.kind,
                ours.under_each(ours.family, text), [family_of(label)] * 3, thing.name)


def all_lengths(tally, things):
    """The things made have lengths of each remainder modulo 3, or the run has tried too little."""
    for kind in EVERY_REMAINDER:
        found = {len(thing.data) % 3 for thing in things if thing.kind == kind}
        if found != REMAINDERS:
            tally.failures.append(f"{kind}: lengths modulo 3 are {sorted(found)} only")


def a_long_crl(tally, things):
    """The data of one CRL, and so its text, have more than 65,536 bytes, or the run has tried too little."""
    longest = max(len(thing.data) for thing in things if thing.kind == tools.CRL)
    tally.note(f"the longest CRL has {longest} bytes of data")
    if longest <= LONG:
        tally.failures.append(f"{tools.CRL}: {longest} bytes at most")


def bundles(tally, ours, peers, maker):
    chain = maker.chain(CHAIN_KEYS)
    for count in BUNDLE_COUNTS:
        bundle(tally, ours, peers, [chain[i % len(chain)] for i in range(count)])


def bundle(tally, ours, peers, certificates):
    texts = {style: our_text(ours, certificates, [style]) for style in STYLES}
    texts["each style by turns"] = our_text(ours, certificates, STYLES)
    for style, text in texts.items():
        our_bundle(tally, f"we indexed what we wrote with {style}, under each grammar", ours, text, certificates)
    for peer in peers:
        peer_bundle(tally, ours, peer, texts, certificates)


def our_text(ours, certificates, styles):
    """The certificates, written in these styles by turns and joined."""
    label, turns = tools.LABELS[tools.CERTIFICATE], itertools.cycle(styles)
    return b"".join(ours.write(label, data, style) for data, style in zip(certificates, turns))


def our_bundle(tally, claim, ours, text, certificates):
    wanted = [(tools.LABELS[tools.CERTIFICATE], data) for data in certificates]
    tally.check(claim, BUNDLES, ours.under_each(ours.index, text), [(0, 0, wanted)] * 3, f"({len(certificates)})")


def peer_bundle(tally, ours, peer, texts, certificates):
    """The peer lists our bundles' certificates in order; the peer's own messages, joined, are a bundle for us."""
    for style in peer.styles if hasattr(peer, "several") else ():
        found = tally.attempt(peer.several, texts[style])
        tally.check(f"{peer.name} listed what we wrote with {style}", BUNDLES, found, certificates,
                    f"({len(certificates)})")
    if peer.writes:
        joined = b"".join(peer.convert(tools.CERTIFICATE, data, tools.DER, tools.PEM) for data in certificates)
        our_bundle(tally, f"we indexed what {peer.name} wrote, under each grammar", ours, joined, certificates)
