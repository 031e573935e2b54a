"""What a user does with the page and sees of it, and the checks that are counted."""

import os

INDEX = f"file://{os.path.dirname(os.path.abspath(__file__))}/out/index.html"
counts = {True: 0, False: 0}


def check(what, holds, said=""):
    counts[bool(holds)] += 1
    if not holds:
        print(f"page: {what}: {said}")


# ---- what the page shows

TREE = """[...document.querySelectorAll('#headers details')].map(node => {
    const name = node.querySelector('summary b').innerText;
    const texts = (row) => ['.name', '.value'].map(part => row.querySelector(part).innerText);
    const rows = [...node.querySelectorAll('li')].map(texts);
    return [name, node.querySelector('summary').innerText.slice(name.length).trim(), Object.fromEntries(rows)];
})"""
ENDING = "(document.querySelector('#headers .rest, #headers .fault') ?? {innerText: ''}).innerText"
LIST = "[...document.querySelectorAll('.row')].map(row => [...row.children].map(cell => cell.textContent))"
LINES = """[...document.querySelectorAll('.bytes')].map(line => [line.querySelector('.offset').innerText,
    [...line.querySelectorAll('.hex span')].map(byte => byte.innerText).join(' '),
    line.querySelector('.text').textContent])"""
ADDRESS = "location.hash"
CHOSEN = "[...document.querySelectorAll('.row[aria-selected=true]')].map(row => row.dataset.row)"


def tree(page):
    """The headers, each with its name, its place and its fields."""
    found = page.evaluate(TREE)
    for _, _, fields in found:
        fields.pop("Payload", None)
    return found


def text(page, selector):
    return page.evaluate(f"document.querySelector({selector!r}).innerText")


def is_hidden(page, selector):
    return page.evaluate(f"document.querySelector({selector!r}).hidden")


def state(page):
    """How many rows there are with those that are selected, the headers' names, the title and the address."""
    rows = [page.evaluate("document.querySelectorAll('.row').length"), page.evaluate(CHOSEN)]
    return [rows, [header[0] for header in tree(page)], page.evaluate("document.title"), page.evaluate(ADDRESS)]


def accessible(page):
    """The roles and names of what the accessibility tree has."""
    nodes = page.call("Accessibility.getFullAXTree")["nodes"]
    return [(node["role"]["value"], node.get("name", {}).get("value", "")) for node in nodes if not node["ignored"]]


# ---- what a user does

def save(folder, name, data):
    with open(f"{folder}/{name}", "wb") as file:
        file.write(data)
    return f"{folder}/{name}"


def drop(page, folder, name, data):
    """Drops a capture, and waits for it."""
    page.drop(save(folder, name, data))
    page.wait(f"document.title.startsWith({name!r})")


def told(page, *paths):
    """Drops files, and returns the notice that the page shows."""
    page.evaluate("window.page.notice('')")
    page.drop(*paths)
    page.wait("!document.querySelector('#notice').hidden")
    return text(page, "#notice")


def write_expression(page, expression):
    """Writes an expression in the place of that which is there."""
    page.evaluate("""{
        const field = document.querySelector('#expression');
        field.value = '';
        field.focus();
    }""")
    page.write(expression)


def go(page, action, *words):
    """Does what changes the page's address, and waits until the page has seen it."""
    page.evaluate("""window.gone = new Promise(done => {
        addEventListener('hashchange', () => setTimeout(done), {once: true});
        setTimeout(done, 10000);
    }); 0""")
    action(*words)
    page.evaluate("window.gone")


def back(page, steps=-1):
    """The browser's Back, or Forward."""
    go(page, page.evaluate, f"history.go({steps})")


def follow_link(page):
    """Follows the first link beside what is told of the frame: that to the frame, or that back to the capture."""
    go(page, page.evaluate, "document.querySelector('#about a').click()")


def type_digits(page, digits):
    """Types into the field for a frame, a digit at a time."""
    page.evaluate("document.querySelector('#digits').focus()")
    for digit in digits:
        page.write(digit)


def pause(page, seconds):
    page.evaluate(f"new Promise(done => setTimeout(done, {seconds * 1000:.0f}))")
