#!/usr/bin/env python3
"""Draws docs/rooms.svg, the map of the rooms, from crates.txt.

tools/rooms.py            writes the picture
tools/rooms.py --check    says whether the picture is current; status 1 if it is not

A room is a box with what crates.txt says of it and with its crates. An arrow leads from a room to a room above it that it cites; an
arrow that follows from two others is left out. A crate that cites a room further down in crates.txt has a line of its own in its box.
"""

import itertools
import pathlib
import re
import sys
from collections import namedtuple
from xml.sax.saxutils import escape

ROOT = pathlib.Path(__file__).resolve().parent.parent
SOURCE = ROOT / "crates.txt"
PICTURE = ROOT / "docs" / "rooms.svg"

WIDTH, MARGIN, GAP, BETWEEN = 920, 20, 24, 34
MOST_WIDE = {1: 720, 2: 430, 3: 276}
PAD, LINE, HEAD = 10, 17, 19
LEGEND = 44
# How wide a character is at most, in pixels: of a title, of a sentence, of the name of a crate.
TITLE_EM, TEXT_EM, NAME_EM = 9.8, 6.7, 7.4

Crate = namedtuple("Crate", "name kind cites")
Room = namedtuple("Room", "name purpose crates")
Box = namedtuple("Box", "left top width height lines base")

STYLE = """
  .ground { fill: #ffffff; } .box { fill: #f6f8fa; stroke: #8c959f; } .edge { fill: none; stroke: #57606a; stroke-width: 1.4; }
  .tip { fill: #57606a; } text { fill: #1f2328; font: 12px "DejaVu Sans", Verdana, sans-serif; }
  .title { font-size: 15px; font-weight: bold; } .code, .proofs, .program { font-family: "DejaVu Sans Mono", Menlo, Consolas, monospace; }
  .proofs { fill: #6639ba; } .program { fill: #0a6b3d; font-weight: bold; } .note { fill: #57606a; font-style: italic; }
  @media (prefers-color-scheme: dark) {
    .ground { fill: #0d1117; } .box { fill: #161b22; stroke: #6e7681; } .edge { stroke: #9198a1; } .tip { fill: #9198a1; }
    text { fill: #e6edf3; } .proofs { fill: #c2a5ff; } .program { fill: #56d38d; } .note { fill: #9198a1; }
  }
"""


def read_rooms(text):
    """The rooms in the order of the file, each with its crates."""
    rooms, comment = [], ""
    for line in text.splitlines():
        heading = re.match(r"## (\w+): (.*)", line)
        if heading:
            rooms.append(Room(heading[1], heading[2].replace("`", ""), []))
        elif line.startswith("#"):
            comment = line
        elif line.strip():
            name, cites = line.split(":")
            rooms[-1].crates.append(Crate(name.split()[0], kind_of(comment), cites.split()))
    return rooms


def kind_of(comment):
    if comment.startswith("# A program"):
        return "program"
    return "proofs" if comment.endswith("No code.") else "code"


def room_of_crates(rooms):
    return {crate.name: number for number, room in enumerate(rooms) for crate in room.crates}


def cited_rooms(rooms):
    """For each room the rooms before it in the file that its crates cite."""
    home = room_of_crates(rooms)
    cited = []
    for number, room in enumerate(rooms):
        cited.append({home[c] for crate in room.crates for c in crate.cites if c in home and home[c] < number})
    return cited


def reduced(cited):
    """The same without what follows: a room that a cited room leads to."""
    reached = []
    for direct in cited:
        reached.append(direct.union(*(reached[room] for room in direct)))
    return [{room for room in direct if not any(room in reached[other] for other in direct)} for direct in cited]


def later_notes(rooms):
    """For each room a line for each crate that cites rooms further down in the file."""
    home = room_of_crates(rooms)
    notes = []
    for number, room in enumerate(rooms):
        lines = []
        for crate in room.crates:
            later = [c for c in crate.cites if home.get(c, number) > number]
            if later:
                lines.append(f"{crate.name} also cites {', '.join(later)}")
        notes.append(lines)
    return notes


def layers_of(cited):
    """The rooms layer by layer: each below all that it cites; a pair (room, cited room) holds a place for an arrow that passes."""
    depth = []
    for direct in cited:
        depth.append(1 + max((depth[room] for room in direct), default=-1))
    layers = [[] for _ in range(max(depth) + 1)]
    for room, level in enumerate(depth):
        layers[level].append(room)
    for room, direct in enumerate(cited):
        for other in direct:
            for level in range(depth[other] + 1, depth[room]):
                layers[level].append((room, other))
    return layers


def links_between(upper, lower, cited):
    """The arrows between two neighbouring layers, as pairs of what stands there."""
    links = []
    for low in lower:
        room, others = (low[0], {low[1]}) if isinstance(low, tuple) else (low, cited[low])
        for other in others:
            links.extend((up, low) for up in upper if up == other or up == (room, other))
    return links


def crossings(upper, lower, cited):
    links = [(upper.index(up), lower.index(low)) for up, low in links_between(upper, lower, cited)]
    pairs = itertools.combinations(links, 2)
    return sum((a[0] - b[0]) * (a[1] - b[1]) < 0 for a, b in pairs)


def lean(upper, lower, cited):
    """How far the arrows lean, each end counted from the middle of its layer."""
    middle = lambda layer, item: layer.index(item) - (len(layer) - 1) / 2
    return sum(abs(middle(upper, up) - middle(lower, low)) for up, low in links_between(upper, lower, cited))


def arranged(layers, cited):
    """Each layer in the order with the fewest crossings, a layer at a time, until nothing gets better."""
    def cost(level, order):
        near = [(layers[level - 1], order)] if level > 0 else []
        near += [(order, layers[level + 1])] if level + 1 < len(layers) else []
        return (sum(crossings(up, low, cited) for up, low in near), sum(lean(up, low, cited) for up, low in near))

    for _ in range(8):
        for level, layer in enumerate(layers):
            layers[level] = list(min(itertools.permutations(layer), key=lambda order: cost(level, order)))
    return layers


def wrapped(words, width, em, first=0):
    """The words in lines of at most `width` pixels; `first` pixels of the first line are taken."""
    lines, room = [[]], width - first
    for word in words:
        need = len(word) * em
        if lines[-1] and need > room:
            lines.append([])
            room = width
        lines[-1].append(word)
        room -= need + 1.4 * em
    return lines


def lines_of(room, notes, width):
    """What stands in a room's box: lines of (class, text), side by side, at most `width` pixels long."""
    begin = len(room.name) * TITLE_EM
    purpose = [" ".join(words) for words in wrapped(room.purpose.split(), width, TEXT_EM, begin + TEXT_EM)]
    lines = [[("title", room.name), ("text", purpose[0])]] + [[("text", words)] for words in purpose[1:]]
    kinds = {crate.name: crate.kind for crate in room.crates}
    lines += [[(kinds[name], name) for name in names] for names in wrapped(list(kinds), width, NAME_EM)]
    for note in notes:
        lines += [[("note", " ".join(words))] for words in wrapped(note.split(), width, TEXT_EM)]
    return lines


def length_of(line):
    em = {"title": TITLE_EM, "text": TEXT_EM, "note": TEXT_EM}
    return sum((len(words) + 1.4) * em.get(kind, NAME_EM) for kind, words in line)


def boxes_of_layer(rooms, layer, notes):
    """For each room of a layer its lines, and how wide and high they are; for an arrow that passes a place of its own."""
    most = MOST_WIDE[sum(not isinstance(item, tuple) for item in layer)] - 2 * PAD
    for item in layer:
        if isinstance(item, tuple):
            yield item, [], 12, 0
        else:
            lines = lines_of(rooms[item], notes[item], most)
            width = min(most, max(length_of(line) for line in lines)) + 2 * PAD
            yield item, lines, round(width), HEAD + LINE * (len(lines) - 1) + 2 * PAD


def boxes_of(rooms, layers):
    """The place of each room, and of each arrow that passes a layer: (x, top, base); at last the height of all."""
    notes, boxes, passes, top = later_notes(rooms), {}, {}, MARGIN
    for layer in layers:
        places = list(boxes_of_layer(rooms, layer, notes))
        left = (WIDTH - sum(width for _, _, width, _ in places) - GAP * (len(layer) - 1)) / 2
        base = top + max(height for _, _, _, height in places)
        for item, lines, width, height in places:
            if lines:
                boxes[item] = Box(left, top, width, height, lines, base)
            else:
                passes[item] = (left + 6, top, base)
            left += width + GAP
        top = base + BETWEEN
    return boxes, passes, top - BETWEEN + MARGIN


def ports(boxes, passes, cited):
    """Where each arrow leaves its room and where it arrives: x by (room, cited room), spread over the box by where they come from."""
    middle = lambda box: box.left + box.width / 2
    leave, arrive = {}, {}
    for room, box in boxes.items():
        aim = lambda other: passes[room, other][0] if (room, other) in passes else middle(boxes[other])
        ups = sorted(cited[room], key=aim)
        for place, other in enumerate(ups):
            leave[room, other] = box.left + box.width * (place + 1) / (len(ups) + 1)
        users = [user for user in boxes if room in cited[user]]
        users.sort(key=lambda user: passes[user, room][0] if (user, room) in passes else middle(boxes[user]))
        for place, user in enumerate(users):
            arrive[user, room] = box.left + box.width * (place + 1) / (len(users) + 1)
    return leave, arrive


def arrow(points):
    """An arrow through the points, upright at each of them, with its tip at the last one."""
    path = f"M{points[0][0]:.0f} {points[0][1]:.0f}"
    for (x, y), (to_x, to_y) in zip(points, points[1:]):
        bend = (y + to_y) / 2
        path += f" C{x:.0f} {bend:.0f} {to_x:.0f} {bend:.0f} {to_x:.0f} {to_y:.0f}"
    x, y = points[-1]
    tip = f"M{x:.0f} {y - 7:.0f} l-4 8 h8 z"
    return [f'  <path class="edge" d="{path}"/>', f'  <path class="tip" d="{tip}"/>']


def drawn_arrows(boxes, passes, cited):
    leave, arrive = ports(boxes, passes, cited)
    lines = []
    for room in sorted(boxes):
        for other in sorted(cited[room]):
            points = [(leave[room, other], boxes[room].top)]
            if (room, other) in passes:
                x, top, bottom = passes[room, other]
                points += [(x, bottom), (x, top)]
            x, box = arrive[room, other], boxes[other]
            lines += arrow(points + [(x, box.base + 7), (x, box.top + box.height + 7)])
    return lines


def span(kind, words, behind):
    """Words of one class; `behind` others they keep a distance."""
    distance = ' dx="10"' if behind else ""
    return f'<tspan class="{kind}"{distance}>{escape(words)}</tspan>'


def drawn_box(box):
    left, top = round(box.left), round(box.top)
    lines = [f'  <rect class="box" x="{left}" y="{top}" width="{box.width}" height="{box.height}" rx="6"/>']
    y = top + PAD + 13
    for parts in box.lines:
        spans = "".join(span(kind, words, place > 0) for place, (kind, words) in enumerate(parts))
        lines.append(f'  <text x="{left + PAD}" y="{y}">{spans}</text>')
        y += LINE
    return lines


def drawn_legend(top):
    """What the signs mean, at the bottom."""
    words = [("code", "code and its proof"), ("proofs", "definitions and proofs alone"), ("program", "program")]
    lines, x = [], MARGIN
    for kind, meaning in words:
        lines.append(f'  <text class="{kind}" x="{x:.0f}" y="{top + 14}">{meaning}</text>')
        x += (len(meaning) + 3) * NAME_EM
    told = "An arrow leads from a room to a room that it cites; an arrow that follows from two others is left out."
    lines.append(f'  <text class="note" x="{MARGIN}" y="{top + 32}">{told}</text>')
    return lines


def picture(text):
    rooms = read_rooms(text)
    cited = reduced(cited_rooms(rooms))
    boxes, passes, height = boxes_of(rooms, arranged(layers_of(cited), cited))
    view = f'viewBox="0 0 {WIDTH} {height + LEGEND}"'
    parts = [f'<svg xmlns="http://www.w3.org/2000/svg" width="{WIDTH}" height="{height + LEGEND}" {view} role="img">']
    parts += ["  <title>The rooms of Hidokpalu, each with its crates</title>", f"  <style>{STYLE}  </style>"]
    parts += [f'  <rect class="ground" width="{WIDTH}" height="{height + LEGEND}" rx="8"/>']
    parts += drawn_arrows(boxes, passes, cited)
    for room in sorted(boxes):
        parts += drawn_box(boxes[room])
    return "\n".join(parts + drawn_legend(height) + ["</svg>", ""])


def main(arguments):
    if arguments not in ([], ["--check"]):
        print(__doc__.strip(), file=sys.stderr)
        return 2
    drawn = picture(SOURCE.read_text(encoding="utf8"))
    if not arguments:
        PICTURE.write_text(drawn, encoding="utf8")
        return 0
    if PICTURE.exists() and PICTURE.read_text(encoding="utf8") == drawn:
        return 0
    print("docs/rooms.svg is not what crates.txt says: run tools/rooms.py", file=sys.stderr)
    return 1


if __name__ == "__main__":
    sys.exit(main(sys.argv[1:]))
