"""Which variations of a certificate's text the peers and we accept, as tables in Markdown."""
import tools
import variations
from ours import GRAMMARS

ONE = {"openssl": "openssl x509", "certtool": "certtool", "Python ssl": "Python ssl", "cryptography": "cryptography"}
SEVERAL = {"openssl": "openssl crl2pkcs7", "certtool": "certtool", "cryptography": "cryptography"}


def compared(found, wanted):
    """The cell for the data that a reader saw in a text that was meant to hold the wanted."""
    if found == wanted:
        return "same"
    if not found:
        return "other: none"
    if any(data not in wanted for data in found):
        return "other: bytes"
    return "other: no. " + " and ".join(str(wanted.index(data) + 1) for data in found) + f" of {len(wanted)}"


def peer_cell(call, variation):
    try:
        return compared(call(variation.text), variation.data)
    except tools.Refused:
        return "no"


def our_cell(answer, variation):
    if answer.number:
        return f"{answer.number} at {answer.place}"
    return compared([data for _, data in answer.messages], variation.ours or variation.data)


def row(variation, peer_calls, our_call, ours):
    peers = [peer_cell(call, variation) for call in peer_calls]
    answers = [our_cell(answer, variation) for answer in ours.under_each(our_call, variation.text)]
    rule = variation.read_rule if our_call == ours.read and variation.read_rule else variation.rule
    return [variation.name, *peers, *answers, rule]


def print_table(ours, our_call, peer_calls, all_variations):
    head = ["variation", *peer_calls, *(f"ours, {name}" for name in GRAMMARS), "rule"]
    rows = [row(variation, peer_calls.values(), our_call, ours) for variation in all_variations]
    for cells in [head, ["---"] * len(head), *rows]:
        print("| " + " | ".join(cells) + " |")


def print_all(ours, peers, maker):
    found = variations.all_of(maker)
    present = {peer.name: peer for peer in peers}
    one = {title: present[name].one for name, title in ONE.items() if name in present}
    several = {title: present[name].several for name, title in SEVERAL.items() if name in present}
    print("Versions: " + "; ".join(dict.fromkeys(peer.version() for peer in peers)) + ".\n")
    print("### Readers of one message, and our `read`\n")
    print_table(ours, ours.read, one, found)
    print("\n### Readers of a bundle, and our `index`\n")
    print_table(ours, ours.index, several, found)
