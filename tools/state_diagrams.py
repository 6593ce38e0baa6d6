"""The state diagrams of docs/overview.md, which tools/overview draws. The names in their boxes are those of the sources: each variant
of an enum, or fields of a struct. `unlike_source` lists what differs."""
import os
import re

TOP = os.path.dirname(os.path.dirname(os.path.abspath(__file__)))

# A box: x, y, width, height, its name (None: not a state of the source), what it does or waits for, and, in red, how it ends.
# An arrow: its corners, the place of its label, and the label, whose lines are separated by "|".
REQUEST = {
    "file": "states_request.svg", "width": 980, "height": 420,
    "source": "crates/ptpm_asker/src/stage.rt", "enum": "Stage",
    "title": "A request, from begin to report",
    "desc": "From Resting a request goes through a freshness check: Waiting or Saving, then Asking. Then it is noted, saved, asked, reported "
            "and saved without the request. Without an answer the run is Over, and the next run sends it again or lets it go.",
    "boxes": [
        (20, 92, 170, 88, "Resting", ["nothing is pending:", "a request can be asked"], []),
        (290, 20, 160, 52, "Waiting", ["the session has no file"], []),
        (290, 92, 160, 52, "Saving", ["the freshness check"], []),
        (540, 42, 180, 80, "Asking", ["the freshness check;", "time-out: sent again"], ["no answer: Over", "not sent: Resting"]),
        (800, 20, 160, 52, "Saving", ["the new session"], []),
        (800, 128, 160, 52, "Noting", ["the caller: it is begun"], []),
        (800, 236, 160, 52, "Saving", ["the session with it"], []),
        (540, 228, 180, 68, "Asking", ["the request;", "time-out: the same octets"], ["pending, not sent: Resting"]),
        (290, 236, 160, 52, "Telling", ["the caller: the answer"], []),
        (20, 236, 170, 52, "Saving", ["the session without it"], []),
        (270, 344, 200, 64, "Resting", ["it is pending: the next run,", "after a kill or power cut too"], []),
        (540, 350, 180, 52, "Over", ["it stays in the file"], [])],
    "arrows": [
        ([(105, 92), (105, 46), (290, 46)], (198, 40), "ask, without a file"),
        ([(190, 118), (290, 118)], (240, 99), "ask, first|in a run"),
        ([(190, 166), (800, 166)], (495, 160), "ask, later in the run"),
        ([(450, 46), (500, 46), (500, 66), (540, 66)], (497, 38), "time is up"),
        ([(450, 118), (500, 118), (500, 100), (540, 100)], (500, 134), "saved"),
        ([(720, 66), (765, 66), (765, 46), (800, 46)], (758, 26), "answer,|no file"),
        ([(720, 98), (765, 98), (765, 146), (800, 146)], (758, 90), "answer"),
        ([(880, 72), (880, 128)], (906, 104), "saved"),
        ([(880, 180), (880, 236)], (906, 212), "noted"),
        ([(800, 262), (720, 262)], (762, 256), "saved"),
        ([(540, 262), (450, 262)], (496, 256), "answer"),
        ([(290, 262), (190, 262)], (240, 256), "noted"),
        ([(105, 236), (105, 180)], (130, 212), "saved"),
        ([(540, 284), (500, 284), (500, 304), (140, 304), (140, 288)], (325, 299), "no message of it could be sent"),
        ([(660, 296), (660, 350)], (698, 326), "no answer"),
        ([(540, 376), (470, 376)], (506, 370), "new run"),
        ([(370, 344), (370, 322), (590, 322), (590, 296)], (480, 317), "sent again"),
        ([(270, 376), (70, 376), (70, 288)], (170, 370), "given up")],
}
SAVING = {
    "file": "states_saving.svg", "width": 980, "height": 320,
    "source": "crates/ptpm_host/src/saving_clock.rt", "struct": "SavingClock",
    "title": "A clock that is saved while it takes datagrams",
    "desc": "A new request leads from saved to unsaved, and an image to being saved. Once that is saved, the messages are released: then it is "
            "saved, or unsaved if it has changed since the image. A loss of power leads back to the last image that was saved.",
    "boxes": [
        (20, 60, 170, 64, "saved", ["nothing waits"], []),
        (290, 60, 180, 64, "unsaved", ["waits", "its messages are held back"], []),
        (560, 60, 170, 64, "being saved", ["waits, is_imaged", "save fails: next image"], []),
        (810, 60, 160, 64, "releasing", ["ready", "it takes nothing"], []),
        (20, 200, 170, 64, "never saved", ["not is_begun", "it takes nothing"], []),
        (260, 200, 150, 64, None, ["any other state"], []),
        (550, 200, 190, 64, "changed since", ["waits, is_imaged, is_changed"], []),
        (810, 200, 160, 64, "releasing", ["ready, waits, is_changed", "it takes nothing"], [])],
    "arrows": [
        ([(190, 92), (290, 92)], (240, 73), "new request,|owner's SET"),
        ([(470, 92), (560, 92)], (513, 86), "image"),
        ([(730, 92), (810, 92)], (768, 86), "saved"),
        ([(890, 60), (890, 26), (105, 26), (105, 60)], (500, 20), "all messages are given out"),
        ([(600, 124), (600, 200)], (559, 166), "new request"),
        ([(690, 200), (690, 124)], (730, 166), "next image"),
        ([(740, 232), (810, 232)], (773, 226), "saved"),
        ([(890, 264), (890, 300), (445, 300), (445, 124)], (670, 294), "all messages of that image are given out"),
        ([(60, 200), (60, 124)], (96, 160), "first|save"),
        ([(335, 200), (335, 162), (150, 162), (150, 124)], (242, 156), "loss of power")],
}
APPLY = {
    "file": "states_apply.svg", "width": 980, "height": 500,
    "source": "crates/ptpm_apply/src/stage.rt", "enum": "Stage",
    "title": "An apply",
    "desc": "For each clock a run first looks at the session's file, and settles what an earlier run left. Then each step is checked, read, "
            "begun, noted, sent and noted again, one step at a time. After all of them each member is read once more.",
    "boxes": [
        (20, 30, 150, 52, "Fresh", ["the journal is read"], []),
        (250, 20, 180, 72, "Looking", ["at the session's file", "of each clock in turn"], ["step's fate unknown: open"]),
        (550, 14, 200, 66, "Settling", ["a step is pending:", "it is sent again"], ["no answer: silent"]),
        (550, 86, 200, 66, "Yielding", ["another program's request is", "pending: it is sent again"], ["no answer: silent"]),
        (550, 158, 200, 52, "LettingGo", ["given up, or already noted"], []),
        (250, 160, 180, 104, None, ["the next clock or step"], ["a step failed: refused,", "answered, in part", "--give-up: given up", "another's SET: changed"]),
        (30, 182, 140, 52, "Leaving", ["the clock's mark goes"], []),
        (800, 222, 170, 80, "Verifying", ["each member again"], ["as planned: complete", "another value: changed", "no answer: silent"]),
        (800, 90, 170, 72, "Over", ["its end is noted, or it", "stays open: silent, a", "signal, a full disk"], []),
        (20, 336, 170, 64, "Checking", ["--check's program"], ["it fails: stopped"]),
        (250, 336, 180, 66, "Reading", ["the value before the step"], ["another value: changed", "no answer: silent"]),
        (520, 336, 170, 66, "Asking", ["the session begins it"], ["no answer: silent"]),
        (790, 336, 180, 66, "Noting", ["the step is begun"], []),
        (790, 430, 180, 66, "Answering", ["the SET is sent"], ["no answer: silent;", "a move: Settling"]),
        (520, 436, 170, 52, "Noting", ["the answer"], []),
        (250, 436, 180, 52, "Resting", ["the session is saved"], [])],
    "arrows": [
        ([(170, 56), (250, 56)], (209, 50), "begin"),
        ([(430, 46), (550, 46)], (0, 0), ""),
        ([(430, 62), (510, 62), (510, 119), (550, 119)], (0, 0), ""),
        ([(430, 76), (490, 76), (490, 184), (550, 184)], (0, 0), ""),
        ([(750, 47), (776, 47), (776, 226), (430, 226)], (610, 221), "answered, or given up"),
        ([(750, 119), (776, 119)], (0, 0), ""),
        ([(750, 184), (776, 184)], (0, 0), ""),
        ([(290, 92), (290, 160)], (262, 121), "nothing|pending"),
        ([(390, 160), (390, 92)], (426, 128), "next clock"),
        ([(250, 200), (170, 200)], (209, 195), "no step left"),
        ([(170, 222), (250, 222)], (0, 0), ""),
        ([(430, 250), (800, 250)], (610, 245), "each step is done"),
        ([(885, 222), (885, 162)], (0, 0), ""),
        ([(270, 264), (270, 300), (105, 300), (105, 336)], (187, 294), "step at another clock"),
        ([(340, 264), (340, 336)], (388, 296), "first step, or|at same clock"),
        ([(190, 368), (250, 368)], (216, 362), "passes"),
        ([(430, 368), (520, 368)], (474, 362), "as planned"),
        ([(690, 368), (790, 368)], (738, 362), "its number"),
        ([(880, 402), (880, 430)], (916, 420), "noted"),
        ([(790, 462), (690, 462)], (740, 456), "answer"),
        ([(520, 462), (430, 462)], (476, 456), "noted"),
        ([(250, 462), (8, 462), (8, 140), (230, 140), (230, 180), (250, 180)], (130, 456), "done")],
}
DIAGRAMS = [REQUEST, SAVING, APPLY]


def text(x, y, words, more=""):
    return f'<text x="{x:g}" y="{y:g}" text-anchor="middle"{more}>{words}</text>'


def box(x, y, width, height, name, lines, ends):
    rows = [(name, ' font-weight="bold" font-size="13"')] if name else []
    rows += [(line, "") for line in lines] + [(line, ' fill="#c00000"') for line in ends]
    first = y + (height - 15 * len(rows)) / 2 + 12
    style = 'fill="#eef2f8" stroke="#1a1a1a"' if name else 'fill="#ffffff" stroke="#1a1a1a" stroke-dasharray="5 4"'
    return ([f'<rect x="{x}" y="{y}" width="{width}" height="{height}" rx="10" {style}/>']
            + [text(x + width / 2, first + 15 * k, row, more) for k, (row, more) in enumerate(rows)])


def arrow(corners, place, label):
    points = " ".join(f"{x},{y}" for x, y in corners)
    return ([f'<polyline points="{points}" fill="none" stroke="#1f4e9c" stroke-width="1.5" marker-end="url(#arrow)"/>']
            + [text(place[0], place[1] + 13 * k, line, ' fill="#1f4e9c"') for k, line in enumerate(filter(None, label.split("|")))])


def picture(width, height, font_size, title, said, parts):
    """A picture of these parts, with its title and what it shows in words."""
    head = [f'<svg xmlns="http://www.w3.org/2000/svg" version="1.1" width="{width}" height="{height}" viewBox="0 0 {width} {height}" '
            f'role="img" aria-labelledby="title desc" font-family="sans-serif" font-size="{font_size}" fill="#1a1a1a">',
            f'<title id="title">{title}</title>', f'<desc id="desc">{said}</desc>',
            '<defs><marker id="arrow" markerWidth="9" markerHeight="9" refX="7" refY="4" orient="auto">'
            '<path d="M0,0 L8,4 L0,8 z" fill="#1f4e9c"/></marker></defs>', f'<rect width="{width}" height="{height}" fill="#ffffff"/>']
    return "\n".join(head + parts + ["</svg>"]) + "\n"


def draw(diagram):
    parts = [part for each in diagram["boxes"] for part in box(*each)] + [part for each in diagram["arrows"] for part in arrow(*each)]
    return picture(diagram["width"], diagram["height"], 12, diagram["title"], diagram["desc"], parts)


def unlike_source(diagram):
    """The variants of the source's enum that are not drawn, and the names drawn that the source lacks."""
    kind = "enum" if "enum" in diagram else "struct"
    with open(os.path.join(TOP, diagram["source"]), encoding="utf-8") as file:
        body = re.search(rf'pub {kind} {diagram[kind]} {{\n(.*?)\n}}', file.read(), re.DOTALL).group(1)
    names = set(re.findall(r'^    (\w+)', body, re.MULTILINE))
    if kind == "enum":
        return sorted(names ^ {name for _, _, _, _, name, _, _ in diagram["boxes"] if name})
    return sorted({"waits", "ready", "is_imaged", "is_changed", "is_begun"} - names)
