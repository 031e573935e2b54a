"""What Rust's API guidelines ask for and Rattle has no use for: derives, also those of serde, and `must_use`."""
from .rules import enclosing, is_public
from .tokens import Refused, closing, head_end, indent, item_start, lex, places, respell

ORDER = "Clone Copy PartialEq Eq PartialOrd Ord Hash Debug Default Error".split()
# Derives that the sources lack. No method of theirs has a name of these traits (`known.PRELUDE_METHODS`), so no call
# means something else with them.
DERIVED = {
    **dict.fromkeys("Peel PcapRecords".split(), ["Clone"]),
    **dict.fromkeys("CapturePackets CaptureReader PcapngOptions".split(), ["Clone", "Debug"]),
    **dict.fromkeys("HexNumber InterfaceSlice OutputBuffer".split(), ["Debug"]),
    **dict.fromkeys(
        "ExtPlaces Filter PacketBuilder PacketContent PacketParts PacketSlice PacketUnits".split(),
        ["Clone", "PartialEq", "Eq"],
    ),
    **dict.fromkeys(
        """Bridge CaptureInterface Content EthernetFront ExtKind ExtPlace Field FieldTest Forgotten FrameWindow
        Instruction Jump LinkKind Node Operator PortConfig PortStates Primitive ReadUnit ReaderState Received Relation
        StaticEntry StationBucket UnitContent VlanConfig""".split(),
        ["PartialEq", "Eq"],
    ),
}
# Values that serde reads and writes with the feature of that name: by their fields, or as the number of which a
# `try_from` makes them, so that no value is read which that refuses. `src/serialized.rs`, by hand, has three more.
SERIALIZED = {
    **dict.fromkeys(
        """ArpEthIpv4Packet ArpHardwareId ArpOperation DoubleVlanHeader EtherType Ethernet2Header LinkExtHeader
        LinkHeader LinuxSllHeader LinuxSllProtocolType MacsecHeader MacsecPType SingleVlanHeader VlanHeader
        HeaderError Layer LenError LenSource
        Feed PeelError PeelFault RestKind Start Summary LinuxSll2Header EthernetFront Decision
        ByteOrder CaptureInterface CopyMode FileHeader LinkType Timestamp TimestampResolution
        CookedHeader EditedPacket PacketEdit
        AcceptableFrames BridgeKind PortConfig PortSet PortStates Received StaticEntry VlanConfig""".split(),
    ),
    **dict.fromkeys("LinuxSllPacketType VlanId".split(), "u16"),
    **dict.fromkeys("MacsecAn MacsecShortLen VlanPcp".split(), "u8"),
}
# Types of which a value does nothing if it is not used, and what the compiler then says.
MUST_USE = dict.fromkeys(["Peel", "PcapRecords", "PcapngOptions", "CapturePackets"], "iterators are lazy and do nothing unless consumed")


def derives(tokens):
    """Types get the derives of the table, and `Hash` where `PartialEq` and `Eq` are derived, if without parameters."""
    for i in range(len(tokens) - 2, -1, -1):
        if tokens[i].text not in ("struct", "enum") or tokens[i].kind != "word":
            continue
        start, name = item_start(tokens, i), tokens[i + 1].text
        at = next((at for at, _ in places(tokens[:i], "#[derive(") if at >= start), None)
        had = {t.text for t in tokens[at + 4:closing(tokens, at + 3)] if t.text != ","} if at is not None else set()
        added = set(DERIVED.get(name, []))
        if twice := had & added:
            raise Refused(tokens[i].line, f"a derive of {', '.join(sorted(twice))}, which erasing/adding.py adds")
        added |= {"Hash"} - had if had | added >= {"PartialEq", "Eq"} and tokens[i + 2].text != "<" else set()
        text = f"#[derive({', '.join(it for it in ORDER if it in had | added)})]"
        if added and at is None:
            before(tokens, i, text)
        elif added:
            respell(tokens, at, closing(tokens, at + 1) + 1, text)


def serialized(tokens):
    """Types of the table get the derives of serde, with the feature."""
    for i in range(len(tokens) - 2, -1, -1):
        if tokens[i].kind == "word" and tokens[i].text in ("struct", "enum") and tokens[i + 1].text in SERIALIZED:
            number = SERIALIZED[tokens[i + 1].text]
            told = f', serde(try_from = "{number}", into = "{number}")' if number else ""
            before(tokens, i, f'#[cfg_attr(feature = "serde", derive(serde::Serialize, serde::Deserialize){told})]')


def before(tokens, i, text):
    """Writes an attribute before all others of the item whose keyword is at `i`."""
    start = item_start(tokens, i)
    new = lex(text, tokens[i].line)[:-1]
    new[0].before, tokens[start].before = tokens[start].before, "\n" + indent(tokens[start])
    tokens[start:start] = new


def returned(tokens, i):
    """The type that the function at `i` returns, as texts; none if nothing, or if it takes what it may write to."""
    end = head_end(tokens, i)
    opened = next(k for k in range(i, end) if tokens[k].text == "(" and tokens[k - 1].text not in ("Fn", "FnMut"))
    closed = closing(tokens, opened)
    takes = [t.text for t in tokens[opened:closed] if t.kind != "life"]
    if any(takes[k:k + 2] == ["&", "mut"] for k in range(len(takes))):
        return []
    return [t.text for t in tokens[closed + 2:end]] if tokens[closed + 1].text == "->" else []


def must_use(tokens):
    """`#[must_use]` is written before each public function that only returns something, and before types that do nothing
    by themselves. A `Result` and such a type have it already."""
    for i in range(len(tokens) - 1, -1, -1):
        if tokens[i].kind == "word" and tokens[i].text in ("struct", "enum") and tokens[i + 1].text in MUST_USE:
            before(tokens, i, f'#[must_use = "{MUST_USE[tokens[i + 1].text]}"]')
        elif tokens[i].kind == "word" and tokens[i].text == "fn" and is_public(tokens, item_start(tokens, i), i):
            kind = returned(tokens, i)
            if kind and named(tokens, i, kind) not in ("Result", *MUST_USE):
                before(tokens, i, "#[must_use]")


def named(tokens, i, kind):
    """The name of a type that the function at `i` returns, without its path; of `Self` that of its `impl`."""
    path = kind[:kind.index("<")] if "<" in kind else kind
    if path != ["Self"]:
        return path[-1]
    brace = enclosing(tokens, item_start(tokens, i))
    start = next(k for k in range(brace, -1, -1) if tokens[k].text == "impl")
    return next((t.text for t in tokens[start:brace] if t.text in MUST_USE), "Self")


RULES = [derives, serialized, must_use]
