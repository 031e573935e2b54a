#!/usr/bin/env python3
"""Tests the page in a headless Chromium, as a user sees it.

    python3 page/test.py [--build proved|cargo] [--pictures FOLDER]

Tests page/out/index.html, which `sh page/build.sh` makes; with --build it is made first, over crates that are proved or by cargo.
With --pictures its states are saved as pictures, light and dark, wide and narrow. The last line is 'N passed, M
failed'; without a browser (on Debian `apt-get install chromium`) a line says so, and nothing is tested.
"""

import argparse
import bz2
import gzip
import lzma
import os
import subprocess
import sys
import tempfile
import time
import xml.etree.ElementTree as xml
from shutil import which

from browser import Page, browser
from examples import (ARP_IN_VLAN, CUT, EXAMPLES, HEADINGS, IPV4, PACKETS, ROWS, SLL, SLL2, classic, digits, pcapng)
from user import (ENDING, INDEX, LINES, LIST, accessible, back, check, counts, drop, follow_link, is_hidden, pause,
                  save, state, text, told, tree, type_digits, write_expression)

TOP = os.path.dirname(os.path.abspath(__file__))
LACKING = 3  # the status of build.sh where what builds the page is missing


def test_examples(page):
    for name, address, headers, ending in EXAMPLES:
        page.open(INDEX + address)
        check(f"{name}, headers", tree(page) == headers, tree(page))
        said = page.evaluate(ENDING)
        check(f"{name}, ending", said.startswith(ending) or said == ending, said)


WRONG_SIZES = """Object.entries(ENUMS.struct).filter(([name, number]) =>
    Number(page.decoder.calls.etherpeel_sizeof(number)) !== STRUCTS[name.toLowerCase()].size).map(([name]) => name)"""


def test_structs(page):
    """The structs of the script have the sizes of those in the module."""
    page.open(INDEX)
    check("the sizes of structs", page.evaluate(WRONG_SIZES) == [], page.evaluate(WRONG_SIZES))


def test_captures(page, folder):
    for name, data in [("classic.pcap", classic(PACKETS)), ("little.pcap", classic(PACKETS, order="<")),
                       ("blocks.pcapng", pcapng(PACKETS))]:
        page.open(INDEX)
        drop(page, folder, name, data)
        check(f"{name}, list", page.evaluate(LIST) == ROWS, page.evaluate(LIST))
        check(f"{name}, first packet", tree(page) == EXAMPLES[0][2], tree(page))
        check(f"{name}, whole", is_hidden(page, "#ending"))
    page.open(INDEX)
    drop(page, folder, "cut.pcap", classic(PACKETS)[:-3])
    check("cut.pcap, list", page.evaluate(LIST) == ROWS[:2], page.evaluate(LIST))
    said = text(page, "#ending")
    check("cut.pcap, where it ends", said.startswith("At byte 118: "), said)
    drop(page, folder, "no.pcap", b"no capture")
    said = text(page, "#notice")
    check("no capture", said.startswith("no.pcap has no packets. At byte 0: "), said)
    page.open(INDEX)
    page.choose("#file", save(folder, "chosen.pcap", classic(PACKETS)))
    page.wait("document.title.startsWith('chosen.pcap')")
    check("a chosen file", page.evaluate(LIST) == ROWS, page.evaluate(LIST))
    check("it can be chosen again", page.evaluate("document.querySelector('#file').value") == "")


CUT_CELLS = """[...document.querySelectorAll('#list th, #list td:not(.line)')]
    .filter(cell => cell.scrollWidth > cell.clientWidth).map(cell => cell.textContent)"""


def test_rows(page, folder):
    """Days, times and lines in the rows, none but a line cut."""
    def linked(link, frame, length=262144):
        return classic([(1700000000, bytes.fromhex(digits(frame)), length)], link=link)

    v2 = "0800 0000 00000003 0001 00"
    far = pcapng([(253402300800, bytes.fromhex(IPV4), 16)])
    nano = classic(PACKETS[1:2], magic=0xA1B23C4D, fraction=123456789)
    when, reply = ROWS[0][1:3], "02:00:00:00:00:01 ARP reply 192.0.2.1 is-at 02:00:00:00:00:01"
    for name, data, time, begin in [
            ("six.pcap", linked(113, SLL), when, f"cooked to us from {reply}"),
            ("four.pcap", linked(113, "0000 0001 0004 c000020100000000 0800"), when, "cooked to us from c0:00:02:01 IPv4 0 bytes"),
            ("none.pcap", linked(113, "0000 0001 0000 0000000000000000 0800"), when, "cooked to us from  IPv4"),
            ("long.pcap", linked(113, "0000 0001 0014 0102030405060708 0800"), when, "cooked to us from 01:02:03:04:05:06:07:08"),
            ("six2.pcap", linked(276, SLL2), when, f"if 3 cooked to us from {reply}"),
            ("four2.pcap", linked(276, v2 + "04 c000020100000000"), when, "if 3 cooked to us from c0:00:02:01 IPv4 0 bytes"),
            ("long2.pcap", linked(276, v2 + "14 0102030405060708"), when, "if 3 cooked to us from 01:02:03:04:05:06:07:08"),
            ("short.pcap", linked(1, IPV4[:26]), when, "fault at 0: Ethernet II needs 14 bytes, has 13"),
            ("nano.pcap", nano, ["2023-11-14", "22:13:21.123456789"], ROWS[1][4]),
            ("far.pcapng", far, ["", "253402300800.000005"], ROWS[1][4].partition(" (")[0])]:
        page.open(INDEX)
        drop(page, folder, name, data)
        found = page.evaluate(LIST)[0]
        check(f"{name}, row", found[1:3] == time and found[4].startswith(begin), found)
        for width in [320, 800, 1024, 1280, 1600]:
            page.resize(width, 800)
            cut = page.evaluate(CUT_CELLS)
            check(f"{name}, nothing is cut at {width} px", not cut, cut)
    page.resize(1280, 800)


def test_links(page, folder):
    """Other links: cooked capture v2, and one that the walk does not know."""
    page.open(INDEX)
    drop(page, folder, "any.pcap", classic([(1700000000, bytes.fromhex(SLL2), 48)], link=276))
    headers = tree(page)
    names = [header[:2] for header in headers]
    check("cooked capture v2", names == [["Linux cooked capture v2", "0 to 20"], ["ARP", "20 to 48"]], names)
    fields = headers[0][2] if headers else {}
    expected = {"Protocol type": "0x0806 (ARP)", "Reserved": "0", "Interface index": "3",
                "ARPHRD type": "1 (Ethernet)", "Packet type": "0 (to us)", "Address length": "6",
                "Address": "02:00:00:00:00:01:00:00"}
    check("cooked capture v2, fields", fields == expected, fields)
    address = "document.querySelector('#about a').getAttribute('href')"
    check("cooked capture v2, link", page.evaluate(address) == f"#type-0806:{SLL2[40:]}", page.evaluate(address))
    drop(page, folder, "cooked.pcap", classic([(1700000000, bytes.fromhex(SLL), len(SLL) // 2)], link=113))
    check("cooked capture v1, link", page.evaluate(address) == f"#sll:{SLL}", page.evaluate(address))
    page.open(INDEX)
    drop(page, folder, "raw.pcap", classic([(1700000000, b"E", 1)], link=101))
    check("another link", page.evaluate(LIST)[0][3:] == ["1", "skipped 1 bytes"], page.evaluate(LIST))
    check("its number", "link type 101 · headers of this link type are not read" in text(page, "#about"), text(page, "#about"))


def test_arp_addresses(page):
    """Protocol addresses of four bytes: those of IPv4, and others, which have no dots."""
    for protocol, wanted in (("0800", ["10.0.0.1", "10.0.0.2"]), ("809b", ["0a:00:00:01", "0a:00:00:02"])):
        page.open(f"{INDEX}#eth:ffffffffffff02000000000108060001{protocol}060400010200000000010a0000010000000000000a000002")
        fields = tree(page)[1][2]
        found = [value for name, value in fields.items() if "protocol address" in name]
        check(f"ARP addresses of the protocol type {protocol}", found == wanted, found)


def test_many_tags(page, folder):
    """A packet with more tags than its line names."""
    page.open(INDEX)
    tags = bytes.fromhex(ARP_IN_VLAN[:24]) + bytes.fromhex("81000005") * 1200
    drop(page, folder, "tags.pcap", classic([(1700000000, tags, len(tags))]))
    line = page.evaluate(LIST)[0][4]
    check("the first thousand of 1,200 tags", line.count(" vlan 5 pcp 0") == 1000, line[-80:])


def test_keys_and_marks(page, folder):
    page.open(INDEX)
    drop(page, folder, "keys.pcap", classic(PACKETS))
    page.evaluate("document.querySelector('#list').focus()")
    chosen = "document.querySelector('.row[aria-selected=true]').dataset.row"
    for key, row in [("ArrowDown", "1"), ("End", "2"), ("ArrowUp", "1"), ("Home", "0")]:
        page.press(key)
        check(f"key {key}", page.evaluate(chosen) == row, page.evaluate(chosen))
    marked = "[...document.querySelectorAll('.hex .marked')].map(cell => Number(cell.dataset.at))"
    letters = marked.replace("hex", "text")
    page.point("#headers details:nth-child(2) li:nth-child(3)")
    check("a field marks its bytes", page.evaluate(marked) == [14, 15], page.evaluate(marked))
    check("a field marks its text", page.evaluate(letters) == [14, 15], page.evaluate(letters))
    page.point("#headers details:nth-child(2) li:nth-child(1)")
    check("a field of three bits marks its byte", page.evaluate(marked) == [14], page.evaluate(marked))
    page.point(".hex [data-at='16']")
    names = page.evaluate("[...document.querySelectorAll('#headers li.marked .name')].map(name => name.innerText)")
    check("a byte marks its fields", names == ["Payload", "EtherType"], names)
    page.point("h1")
    page.evaluate("document.querySelector('#headers details:nth-child(1) li').focus()")
    check("a field with the focus marks its bytes", page.evaluate(marked) == [0, 1, 2, 3, 4, 5], page.evaluate(marked))
    page.click(".row:nth-child(2)")
    check("a click", page.evaluate(chosen) == "1", page.evaluate(chosen))
    colors = page.evaluate("[...document.querySelectorAll('.hex span')].map(cell => cell.className)")
    check("bytes by header", colors == ["kind1"] * 14 + ["left"] * 2, colors)


def test_selection(page, folder):
    page.open(INDEX)
    drop(page, folder, "selection.pcap", classic(PACKETS))
    for expression, numbers, said in [
            ("vlan", ["1", "3"], "2 of 3 packets"), ("vlan 291 and arp", ["1"], "1 of 3 packets"),
            ("cut", ["2", "3"], "2 of 3 packets"), ("ip6", [], "No packet matches: 0 of 3 packets")]:
        write_expression(page, expression)
        rows = [row[0] for row in page.evaluate(LIST)]
        found = (rows, text(page, "#selected"))
        check(f"select {expression}", found == (numbers, said), found)
        check(f"select {expression}, in the list", is_hidden(page, "#none") == bool(numbers))


def test_wrong_selection(page, folder):
    """Why and where a filter is wrong stands below its field, and the list is that of the filter before it."""
    page.open(INDEX)
    drop(page, folder, "wrong.pcap", classic(PACKETS))
    for before, expression, reason, word in [
            ("", "vlan and", "At byte 8: expected a primitive, `not` or `(`.", "…"),
            ("vlan", " vlan 5000", "At byte 6: expected a number up to 4095.", "5000"),
            ("cut", "cut or frob 3", "At byte 7: expected a primitive, `not` or `(`.", "frob")]:
        write_expression(page, before)
        rows = page.evaluate(LIST)
        write_expression(page, expression)
        said = page.evaluate("document.querySelector('#selected').textContent")
        check(f"wrong {expression}", said.startswith(reason) and said.endswith("The list is unchanged."), said)
        marked = page.evaluate("document.querySelector('#selected mark').textContent")
        check(f"wrong {expression}, place", marked == word, marked)
        check(f"wrong {expression}, list", page.evaluate(LIST) == rows, page.evaluate(LIST))
    near = page.evaluate("""(() => {
        const rectangle = (id) => document.getElementById(id).getBoundingClientRect();
        const [field, told] = [rectangle('expression'), rectangle('selected')];
        return [told.left - field.left, told.top - field.bottom, told.height > 0]; })()""")
    check("told below the field", abs(near[0]) < 10 and 0 <= near[1] < 20 and near[2], near)
    [described] = [node["description"]["value"] for node in page.call("Accessibility.getFullAXTree")["nodes"]
                   if node.get("name", {}).get("value") == "An expression that selects packets"]
    check("the field is described by it", described.startswith("At byte 7: expected"), described)
    write_expression(page, "arp")
    check("a filter after a wrong one", text(page, "#selected") == "1 of 3 packets")


def test_input(page):
    page.open(INDEX)
    page.evaluate("document.querySelector('#digits').focus()")
    page.write(":".join(CUT[at:at + 2] for at in range(0, len(CUT), 2)))
    check("pasted digits", page.evaluate("document.querySelector('#headers .fault') !== null"))
    check("the address of a frame", page.evaluate("location.hash") == f"#eth:{CUT}", page.evaluate("location.hash"))
    page.write("x")
    check("no digits", "hexadecimal" in text(page, "#notice"))


def test_beside(page, folder):
    """A frame is shown beside the capture that is open, and Back leads to the packet that was chosen."""
    page.open(INDEX)
    drop(page, folder, "beside.pcap", classic(PACKETS))
    page.click(".row:nth-child(2)")
    packet = [[3, ["1"]], ["Ethernet II"], "beside.pcap, packet 2 · Packet headers", ""]
    check("a packet", state(page) == packet, state(page))
    type_digits(page, CUT[0])
    check("one digit", state(page) == packet, state(page))
    type_digits(page, CUT[1:])
    title = "Frame of 15 bytes · beside.pcap · Packet headers"
    frame = [[3, []], ["Ethernet II"], title, f"#eth:{CUT}"]
    check("a typed frame", state(page) == frame, state(page))
    back(page)
    check("Back from a typed frame", state(page) == packet, state(page))
    check("Back empties the field", page.evaluate("document.querySelector('#digits').value") == "")
    back(page, 1)
    check("Forward to it", state(page) == frame, state(page))
    follow_link(page)
    check("back to the capture", state(page) == packet, state(page))
    focused = page.evaluate("document.activeElement.id")
    check("the list has the focus", focused == "list", focused)
    page.press("ArrowUp")
    first = [[3, ["0"]], ["Ethernet II", "VLAN tag", "ARP"], "beside.pcap, packet 1 · Packet headers", ""]
    check("another packet", state(page) == first, state(page))
    follow_link(page)
    title = "Frame of 46 bytes · beside.pcap · Packet headers"
    linked = [[3, []], first[1], title, f"#eth:{ARP_IN_VLAN}"]
    check("the link to a frame", state(page) == linked, state(page))
    page.click(".row:nth-child(3)")
    third = [[3, ["2"]], ["Ethernet II", "VLAN tag"], "beside.pcap, packet 3 · Packet headers", ""]
    check("a packet after a frame", state(page) == third, state(page))
    back(page)
    check("Back to the frame", state(page) == linked, state(page))
    back(page)
    check("Back to the capture", state(page) == third, state(page))


def test_back_to_place(page, folder):
    """Back leads to the list as it was scrolled, also where the packet that was chosen is not seen."""
    page.open(INDEX)
    drop(page, folder, "place.pcap", classic(PACKETS * 200))
    page.click(".row:nth-child(3)")
    page.evaluate("document.querySelector('#scroll').scrollTop = 2800; 0")
    page.wait("document.querySelector('.row .number').innerText === '101'")
    place = """[document.querySelector('#scroll').scrollTop, document.querySelector('.row .number').innerText,
        document.querySelector('#about').innerText.split(' · ')[0], document.querySelector('#digits').value]"""
    before = page.evaluate(place)
    check("a place", before == [2800, "101", "Packet 3", ""], before)
    for name, action in [("digits", lambda: type_digits(page, CUT)), ("the link", lambda: follow_link(page))]:
        action()
        check(f"{name}, a frame", text(page, "#about").startswith("Frame"))
        back(page)
        check(f"Back to the place from {name}", page.evaluate(place) == before, page.evaluate(place))


def test_beside_selection(page, folder):
    """A frame beside packets that are selected, and another capture after it."""
    page.open(f"{INDEX}#eth:{IPV4}")
    alone = [[0, []], ["Ethernet II"], "Frame of 16 bytes · Packet headers", f"#eth:{IPV4}"]
    check("a frame alone", state(page) == alone, state(page))
    drop(page, folder, "first.pcap", classic(PACKETS))
    write_expression(page, "cut")
    type_digits(page, CUT)
    check("beside a selection", [row[0] for row in page.evaluate(LIST)] == ["2", "3"])
    back(page)
    selected = [[2, ["0"]], ["Ethernet II"], "first.pcap, packet 2 · Packet headers", ""]
    check("Back to a selection", state(page) == selected, state(page))
    write_expression(page, "ip6")
    none = [[0, []], "first.pcap · Packet headers"]
    check("none selected", state(page)[0::2] == none and is_hidden(page, "#frame"), state(page))
    type_digits(page, CUT)
    check("a frame beside none", state(page)[0] == [0, []] and not is_hidden(page, "#frame"), state(page))
    back(page)
    check("Back to none", state(page)[0::2] == none and is_hidden(page, "#frame"), state(page))
    type_digits(page, CUT)
    drop(page, folder, "second.pcap", classic(PACKETS[1:2]))
    second = [[1, ["0"]], ["Ethernet II"], "second.pcap, packet 1 · Packet headers", ""]
    check("another capture", state(page) == second, state(page))
    back(page)
    title = "Frame of 15 bytes · second.pcap · Packet headers"
    before = [[1, []], ["Ethernet II"], title, f"#eth:{CUT}"]
    check("Back to the frame before it", state(page) == before, state(page))
    page.evaluate("""{
        const field = document.querySelector('#digits');
        field.value = '';
        field.dispatchEvent(new Event('input'));
    }""")
    check("an empty field", state(page) == second, state(page))
    drop(page, folder, "none.pcap", b"no capture")
    parts = page.evaluate("[...document.querySelectorAll('main section')].map(part => part.hidden)")
    found = (state(page)[2:], parts)
    check("no capture", found == (["none.pcap · Packet headers", ""], [False, True, True]), found)


def test_accessible(page):
    """The controls in the accessibility tree, as a screen reader has them."""
    page.open(INDEX)
    found = accessible(page)
    for control in [("button", "Open a capture"), ("combobox", "What the frame begins with"),
                    ("textbox", "A frame as hexadecimal digits")]:
        check(f"the {control[0]} {control[1]}", control in found, found)
    page.call("Page.setInterceptFileChooserDialog", enabled=True)
    for what, press in [("the keyboard", lambda: (page.press("Tab"), page.press("Enter"))),
                        ("the mouse", lambda: page.click("#open"))]:
        before, is_asked, end = len(page.events), False, time.monotonic() + 10
        press()
        while not is_asked and time.monotonic() < end:
            pause(page, 0.02)
            is_asked = any(event.get("method") == "Page.fileChooserOpened" for event in page.events[before:])
        focused = page.evaluate("document.activeElement.outerHTML")
        check(f"the first control asks for a file by {what}", is_asked, focused)
    page.call("Page.setInterceptFileChooserDialog", enabled=False)


def test_accessible_list(page, folder):
    """A capture in the accessibility tree."""
    page.open(INDEX)
    drop(page, folder, "accessible.pcap", classic(PACKETS))
    found = accessible(page)
    for control in [("RootWebArea", "accessible.pcap, packet 1 · Packet headers"), ("grid", "Packets"),
                    ("region", "Headers"), ("region", "Bytes"), ("textbox", "An expression that selects packets"),
                    ("link", "link to this frame")]:
        check(f"the {control[0]} {control[1]}", control in found, found)
    heads = [name for role, name in found if role == "columnheader"]
    check("the headings", heads == HEADINGS, heads)
    cells = [name for role, name in found if role == "gridcell"]
    check("the packets", cells == sum(ROWS, []), cells)
    scopes = page.evaluate("[...document.querySelectorAll('#list th')].map(head => head.scope)")
    check("the scopes of the headings", scopes == ["col"] * len(HEADINGS), scopes)
    counted = page.evaluate("[document.querySelector('#list').ariaRowCount, "
                            "[...document.querySelectorAll('.row')].map(row => row.ariaRowIndex)]")
    check("the rows are counted with that of the headings", counted == ["4", ["2", "3", "4"]], counted)
    page.evaluate("document.querySelector('#list').focus()")
    page.press("ArrowDown")
    active = text(page, "#" + page.evaluate("document.querySelector('#list').getAttribute('aria-activedescendant')"))
    check("the active row", active.split() == " ".join(ROWS[1]).split(), active)


def test_many(page, folder):
    """100,000 packets: the first row is there within a second."""
    data = classic(PACKETS[:1] * 50_000 + PACKETS[1:2] * 50_000)
    page.open(INDEX)
    page.evaluate("""window.began = null;
        document.addEventListener('drop', () => { window.began = performance.now(); }, true);
        new MutationObserver((_, observer) => { window.seen = performance.now(); observer.disconnect(); })
            .observe(document.querySelector('#rows'), {childList: true}); 0""")
    drop(page, folder, "many.pcap", data)
    took = page.evaluate("window.seen - window.began")
    check("100,000 packets, first row within a second", took < 1000, f"{took:.0f} ms")
    page.evaluate("document.querySelector('#list').focus()")
    page.press("End")
    last = text(page, ".row:last-child")
    check("100,000 packets, last row", last.startswith("100,000"), last)
    heights = page.evaluate("""(() => {
        const rectangle = (selector) => document.querySelector(selector).getBoundingClientRect();
        return [rectangle('.row').height, rectangle('.row:last-child').bottom <= rectangle('#scroll').bottom]; })()""")
    check("100,000 packets, the last row is seen whole", heights == [28, True], heights)
    page.evaluate("document.querySelector('#scroll').scrollTop = document.querySelector('#height').offsetHeight / 2")
    page.wait("/^(49|50),/.test(document.querySelector('.row .number').innerText)")
    check("100,000 packets, in the middle", True)
    begin = time.monotonic()
    write_expression(page, "vlan 291")
    check("100,000 packets, selected", text(page, "#selected") == "50,000 of 100,000 packets")
    selected = (time.monotonic() - begin) * 1000
    print(f"page: 100,000 packets: first row after {took:.0f} ms, selected after {selected:.0f} ms")
    size = "window.page.decoder.calls.memory.buffer.byteLength"
    before = page.evaluate(size)
    drop(page, folder, "again.pcap", data)
    check("100,000 packets again, in the same memory", page.evaluate(size) <= before, (before, page.evaluate(size)))


def test_long(page, folder):
    """All bytes of a long packet."""
    page.open(INDEX)
    drop(page, folder, "long.pcap", classic([(1700000000, bytes.fromhex(IPV4) + bytes(200_000), 200_016)]))
    page.evaluate("document.querySelector('#dump button').click()")
    shown = page.evaluate("""[document.querySelectorAll('.hex span').length,
        document.querySelector('#dump button') === null]""")
    check("a long packet", shown == [200_016, True], shown)
    ends = page.evaluate("""['first', 'last'].map(which => {
        const line = document.querySelector(`.bytes:${which}-child`);
        return [line.querySelector('.offset').innerText, line.querySelector('.text').getBoundingClientRect().left];
    })""")
    check("a long packet, offsets", [offset for offset, _ in ends] == ["0", "200000"], ends)
    check("a long packet, the text is a column", ends[0][1] == ends[1][1], ends)


def test_bytes(page):
    """Offsets and ASCII beside the bytes, as `hexdump -C` lays them out, but for the offsets, which are decimal."""
    page.open(f"{INDEX}#eth:" + digits("020000000001 020000000002 0800 45 1f 20 7e 7f 80 48692074 68657265 ff"))
    lines = [["0", "02 00 00 00 00 01 02 00 00 00 00 02 08 00 45 1f", "..............E."],
             ["16", "20 7e 7f 80 48 69 20 74 68 65 72 65 ff", " ~..Hi there."]]
    check("bytes", page.evaluate(LINES) == lines, page.evaluate(LINES))
    edges = page.evaluate("""[...document.querySelectorAll('.bytes .text')].map(
        text => text.getBoundingClientRect().left)""")
    check("the text is a column", len(edges) == 2 and edges[0] == edges[1], edges)
    page.evaluate("getSelection().selectAllChildren(document.querySelector('#dump'))")
    copied = page.evaluate("getSelection().toString()").split()
    check("digits alone are copied", copied == [line[1].replace(" ", "") for line in lines], copied)
    page.resize(320, 720)
    narrow = [["0", "02 00 00 00 00 01 02 00", "........"], ["8", "00 00 00 02 08 00 45 1f", "......E."],
              ["16", "20 7e 7f 80 48 69 20 74", " ~..Hi t"], ["24", "68 65 72 65 ff", "here."]]
    page.wait("document.querySelectorAll('.bytes').length === 4")
    check("bytes, 320 px", page.evaluate(LINES) == narrow, page.evaluate(LINES))
    widths = page.evaluate("""(() => {
        const dump = document.querySelector('#dump');
        return [dump.scrollWidth, dump.clientWidth]; })()""")
    check("bytes, 320 px, seen", widths[0] <= widths[1], widths)
    page.resize(1280, 800)


def test_compressed(page, folder):
    """A capture that gzip compressed is decompressed; other ways of compression are named."""
    data = classic(PACKETS)
    page.open(INDEX)
    drop(page, folder, "packed.pcap.gz", gzip.compress(data))
    check("gzip, list", page.evaluate(LIST) == ROWS, page.evaluate(LIST))
    check("gzip, nothing is told", is_hidden(page, "#notice"))
    drop(page, folder, "fault.pcap.gz", gzip.compress(data[:-3]))
    said = text(page, "#ending")
    end = " Offsets count bytes of the decompressed file."
    check("gzip, a fault", said.startswith("At byte 118: ") and said.endswith(end), said)
    compressed = gzip.compress(data)
    for name, data, way, tool in [
            ("cut.gz", compressed[:-9], "gzip", "gunzip"), ("bad.gz", compressed[:-8] + bytes(8), "gzip", "gunzip"),
            ("two.gz", compressed * 2, "gzip", "gunzip"), ("head.gz", b"\x1f\x8b", "gzip", "gunzip"),
            ("other.bz2", bz2.compress(data), "bzip2", "bunzip2"), ("other.xz", lzma.compress(data), "xz", "unxz"),
            ("other.zst", bytes.fromhex("28b52ffd"), "zstd", "unzstd"),
            ("other.lz4", bytes.fromhex("04224d18"), "lz4", "unlz4")]:
        said = told(page, save(folder, name, data))
        begin, end = f"{name} could not be read: it is compressed with {way}", f"Decompress it first, as {tool} does."
        check(f"{name}, told", said.startswith(begin) and said.endswith(end), said)
        check(f"{name}, the capture is kept", page.evaluate("document.title").startswith("fault.pcap.gz"))


def test_files(page, folder):
    """Of several files that are dropped the first is opened, and the page says so; of two in turn the second."""
    one, two = save(folder, "one.pcap", classic(PACKETS)), save(folder, "two.pcap", classic(PACKETS[:1]))
    bad = save(folder, "bad.pcap", b"no capture")
    page.open(INDEX)
    said = told(page, one, two)
    check("two files", said == "2 files were dropped; only the first, one.pcap, was opened.", said)
    check("two files, list", page.evaluate(LIST) == ROWS and page.evaluate("document.title").startswith("one.pcap"))
    said = told(page, bad, one, two)
    check("three files", said.startswith("bad.pcap has no packets. At byte 0: ")
          and said.endswith(" 3 files were dropped; only the first, bad.pcap, was opened."), said)
    drop(page, folder, "two.pcap", classic(PACKETS[:1]))
    check("one file, nothing is told", is_hidden(page, "#notice"))
    title = page.evaluate("""(async () => {
        let finish;
        const slow = new File(['no capture'], 'slow.pcap');
        slow.slice = () => ({ arrayBuffer: () => new Promise(done => { finish = () => done(new ArrayBuffer(4)); }) });
        const first = window.page.openFiles([slow]);
        await window.page.openFiles([new File([Uint8Array.from(%s)], 'quick.pcap')]);
        finish();
        await first;
        return document.title;
    })()""" % list(classic(PACKETS)))
    check("a file after one that takes longer", title.startswith("quick.pcap"), title)
    check("a file after one that takes longer, list", page.evaluate(LIST) == ROWS and is_hidden(page, "#notice"))


def test_old_browser(page):
    source = "WebAssembly.instantiate = () => Promise.reject(new WebAssembly.CompileError('memory64'));"
    script = page.call("Page.addScriptToEvaluateOnNewDocument", source=source)
    page.open(INDEX)
    notice = text(page, "#notice")
    check("no 64-bit memories", "Chromium" in notice and "Firefox" in notice, notice)
    page.call("Page.removeScriptToEvaluateOnNewDocument", identifier=script["identifier"])


def test_narrow(page, folder):
    page.resize(320, 640)
    page.open(INDEX)
    check("320 px, empty", page.evaluate("document.scrollingElement.scrollWidth") <= 320)
    drop(page, folder, "narrow.pcap", classic(PACKETS))
    width = page.evaluate("document.scrollingElement.scrollWidth")
    check("320 px, a capture", width <= 320, width)
    page.resize(1280, 800)


def test_silence(page):
    requests = [event for event in page.events if event.get("method") == "Network.requestWillBeSent"]
    asked = [event["params"]["request"]["url"] for event in requests]
    sent = [url for url in asked if not url.startswith(("file:", "data:", "about:"))]
    check("nothing is sent", not sent, sent)
    refused = page.evaluate("fetch('http://127.0.0.1:9/').then(() => false, () => true)")
    check("the page may not send", refused)


def test_against_tshark(page, folder):
    """Places and values of fields in 64 frames, as tshark has them."""
    if not which("tshark"):
        print("page: not compared with tshark: it is not installed")
        return
    frames = []
    for number in range(64):
        tags = [f"{0x8100 if number % 2 else 0x88a8:04x}{number * 977 % 65536:04x}"] * (number % 4)
        arp = f"0001080006040001{number:012x}0a0000{number:02x}ffffffffffff0a000001"
        payload = "0806" + arp if number % 3 else "0800" + "45" * 20
        frames.append(bytes.fromhex(f"ffffffffffff02000000{number:04x}" + "".join(tags) + payload))
    path = f"{folder}/frames.pcap"
    with open(path, "wb") as file:
        file.write(classic([(1700000000 + number, frame, len(frame)) for number, frame in enumerate(frames)]))
    ran = subprocess.run(["tshark", "-r", path, "-T", "pdml"], capture_output=True, check=True)
    wanted = {"eth.dst": 1, "eth.src": 2, "vlan.id": 11, "ieee8021ad.svid": 11, "ieee8021ad.cvid": 11,
              "ieee8021ad.id": 11, "arp.opcode": 29, "arp.src.hw_mac": 30, "arp.src.proto_ipv4": 31,
              "arp.dst.hw_mac": 32, "arp.dst.proto_ipv4": 33}
    page.open(INDEX)
    page.drop(path)
    page.wait("document.title.startsWith('frames.pcap')")
    ours = page.evaluate("""Array.from({length: 64}, (_, index) =>
        page.decoder.fields(page.decoder.frameOf(index)).map(field => [
            field.name, Math.floor(field.bit / 8), Math.ceil((field.bit + field.bits) / 8),
            field.bits <= 16 ? Number(field.value) : 0]))""")
    for number, packet in enumerate(xml.fromstring(ran.stdout).iter("packet")):
        theirs = []
        for field in packet.iter("field"):
            if field.get("name") in wanted:
                start = int(field.get("pos"))
                value = int(field.get("show"), 0) if wanted[field.get("name")] in (11, 29) else 0
                theirs.append([wanted[field.get("name")], start, start + int(field.get("size")), value])
        mine = [field for field in ours[number] if field[0] in wanted.values()]
        check(f"frame {number} as tshark has it", sorted(mine) == sorted(theirs), (mine, theirs))


def pictures(page, target, folder):
    states = {"empty": "", "fault": EXAMPLES[3][1], "capture": None, "beside": None}
    os.makedirs(target, exist_ok=True)
    for width, height, size in [(1280, 800, "wide"), (320, 720, "narrow")]:
        page.resize(width, height)
        for scheme in ["light", "dark"]:
            page.prefer(scheme)
            for state, address in states.items():
                page.open(INDEX + (address or ""))
                if address is None:
                    drop(page, folder, "capture.pcap", classic(PACKETS * 20))
                    page.point("#headers details:nth-child(2) li:nth-child(3)")
                if state == "beside":
                    type_digits(page, CUT)
                page.picture(f"{target}/{state}-{scheme}-{size}.png")


def build(word):
    """Makes the page over crates that are proved, or by cargo. Returns the status, and says what is wrong."""
    ran = subprocess.run(["sh", f"{TOP}/build.sh", word], stdout=subprocess.PIPE, stderr=subprocess.STDOUT,
                         text=True, errors="replace")
    if ran.returncode:
        print(f"left out: {ran.stdout.strip()}" if ran.returncode == LACKING else ran.stdout)
    return ran.returncode


def main():
    words = argparse.ArgumentParser(description=__doc__.split("\n")[0])
    words.add_argument("--build", choices=["proved", "cargo"])
    words.add_argument("--pictures", metavar="FOLDER")
    given = words.parse_args()
    if not browser():
        print("page: skipped: no Chromium is installed (on Debian: apt-get install chromium)")
    elif given.build and (status := build(given.build)):
        counts[False] += status != LACKING
    else:
        with Page() as page, tempfile.TemporaryDirectory() as folder:
            test_examples(page)
            for test in [test_captures, test_rows, test_links, test_many_tags, test_keys_and_marks, test_selection,
                         test_wrong_selection, test_beside, test_back_to_place, test_beside_selection,
                         test_accessible_list, test_compressed, test_files, test_many, test_long, test_narrow,
                         test_against_tshark]:
                test(page, folder)
            for test in [test_structs, test_bytes, test_arp_addresses, test_accessible, test_input, test_old_browser,
                         test_silence]:
                test(page)
            if given.pictures:
                pictures(page, given.pictures, folder)
    print(f"{counts[True]} passed, {counts[False]} failed")
    return 1 if counts[False] else 0


if __name__ == "__main__":
    sys.exit(main())
