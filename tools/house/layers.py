"""Holds crates.txt, its layers, and the picture and the table of docs/ARCHITECTURE.md."""
import re

from names import SPAN
from repository import crates, fail, text_of

# The crates that may stand on more than MOST_DEPENDENCIES others, beside programs: they gather all public calls.
FACES = {"daybook", "exports"}
MOST_DEPENDENCIES = 30
# The libraries of the kit that a line may have; std is every crate's, and rt refuses libc and os.
KIT = {"bytes"}
# Endings that make no other name: level and levels, print and printed, run and running.
ENDINGS = ("s", "es", "d", "ed", "ing", "er", "or", "ion", "ions", "ment", "y")

class House:
    """crates.txt: the layers, the lowest first; the layer of each crate, what it stands on, and its line."""

    def __init__(self):
        self.layers, self.layer_of, self.needs, self.place = [], {}, {}, {}
        for number, line in enumerate(text_of("crates.txt").split("\n"), 1):
            place = f"crates.txt:{number}"
            heading = re.match(r"# ([a-z]+)(?::|$)", line)
            if heading:
                if heading.group(1) in self.layers:
                    fail(place, heading.group(1), "a layer stands twice")
                self.layers.append(heading.group(1))
            elif ":" in line and not line.startswith("#"):
                head, needs = line.split(":")
                name = head.split()[0]  # behind it stands `staticlib`, where the crate is one
                self.layer_of[name] = self.layers[-1] if self.layers else None
                self.needs[name] = needs.split()
                self.place[name] = place

    def is_above(self, layer, other):
        return self.layers.index(layer) > self.layers.index(other)

    def edges(self):
        """Every crate of the repository with each that it stands on."""
        return [(name, need) for name in self.needs for need in self.needs[name] if need in self.layer_of]


def hold_crate(house, name):
    place, needs = house.place[name], house.needs[name]
    if name not in crates:
        fail(place, name, "there is no such folder in crates/")
    elif len(needs) > MOST_DEPENDENCIES and name not in FACES and not crates[name].program:
        fail(place, name, f"stands on {len(needs)} crates; {MOST_DEPENDENCIES} are the most")
    for need in needs:
        if need not in crates and need not in KIT:
            fail(place, need, "no such crate, here or in the kit")


def hold_layers(house):
    """Does every crate stand under a layer, by its first word, and on nothing above it?"""
    by_word = {}  # the first crate of a first word
    for name, layer in house.layer_of.items():
        word = name.split("_")[0]
        first = by_word.setdefault(word, name) if "_" in name else name
        if layer is None:
            fail(house.place[name], name, "below no layer ('# LAYER')")
        elif "_" in name and word in house.layers and word != layer:
            fail(house.place[name], name, f"stands in the layer {layer}, by its first word it is of {word}")
        elif house.layer_of[first] != layer:
            fail(house.place[name], name, f"stands in the layer {layer}, but {first}, with the same first word, in {house.layer_of[first]}")
    for name, need in house.edges():
        own, other = house.layer_of[name], house.layer_of[need]
        if own and other and house.is_above(other, own):
            fail(house.place[name], f"{name} -> {need}", f"goes upward, from the layer {own} to {other}")


def hold_names(house):
    for a in house.layer_of:
        for b in house.layer_of:
            if b.startswith(a) and (b[len(a) :] in ENDINGS or b[len(a) :] == a[-1] + "ing"):
                fail("crates.txt", f"{a}, {b}", "two names that differ by an ending only")


def hold_picture(house, document="docs/ARCHITECTURE.md"):
    """Has the picture every layer with its crates, and do its arrows lead to all that a layer stands on?"""
    picture = re.search(r"^## The layers\n.*?^```mermaid\n(.*?)^```", text_of(document), re.S | re.M)
    boxes = dict(re.findall(r'^ *(\w+)\["<b>(\w+)</b>', picture.group(1) if picture else "", re.M))
    drawn = {layer: set() for layer in boxes.values()}
    for layer, text in re.findall(r'\["<b>(\w+)</b>.*?<br/>(.*)"\]', picture.group(1) if picture else ""):
        drawn[layer].update(re.split(r",\s*|<br/>", text))
    for layer in {*house.layers, *drawn}:
        is_there = {name for name, own in house.layer_of.items() if own == layer}
        for name in sorted(is_there ^ drawn.get(layer, set())):
            fail(document, name, f"of the layer {layer}, stands in crates.txt or in the picture alone")
    arrows = [(boxes.get(a), boxes.get(b)) for a, b in re.findall(r"^ *(\w+) --> (\w+)$", picture.group(1) if picture else "", re.M)]
    below = {layer: set() for layer in house.layers}  # what the arrows lead to
    for layer in house.layers:
        for a, b in arrows:
            if a == layer and b in below:
                below[layer] |= {b} | below[b]
                if not house.is_above(a, b):
                    fail(document, f"{a} --> {b}", "an arrow that goes upward")
    for name, need in house.edges():
        own, other = house.layer_of[name], house.layer_of[need]
        if own in below and other != own and other not in below[own]:
            fail(document, f"{name} -> {need}", f"no arrow of the picture leads from {own} to {other}")


def hold_table(layers, document="docs/ARCHITECTURE.md"):
    """Has the table of crates a row for each crate, under its layer?"""
    rows, section, layer = set(), None, None
    for number, line in enumerate(text_of(document).split("\n"), 1):
        place = f"{document}:{number}"
        section = line.lstrip("# ") if line.startswith("#") else section
        cells = [c.strip() for c in line.strip("| ").split("|")] if line.startswith("| ") else []
        if line.startswith("| |"):
            cells = [""] + cells
        if section != "The crates" or len(cells) < 3:
            continue
        layer = cells[0] or layer
        for name in SPAN.findall(cells[1]):
            if name in rows:
                fail(place, name, "a crate has two rows")
            elif name in layers and layer != layers[name]:
                fail(place, name, f"stands under {layer}; in crates.txt under {layers[name]}")
            elif name not in layers:
                fail(place, name, "no such crate")
            rows.add(name)
    for name in sorted(set(layers) - rows):
        fail(document, name, "a crate without a row in 'The crates'")


def hold():
    house = House()
    for name in house.layer_of:
        hold_crate(house, name)
    hold_layers(house)
    hold_names(house)
    hold_picture(house)
    hold_table(house.layer_of)
