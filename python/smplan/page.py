"""A plan as a page of its own: one HTML file, which asks no network.

Streams are lanes, and signals arrows between them; beside them stand each server's load against its room over the rounds of the plan, and the placement
before and after. A round is what all streams do once, if they are equally fast (`story`).
"""
import html
from dataclasses import dataclass
from pathlib import Path
from typing import AbstractSet, Dict, List, Optional, Sequence, Tuple

from .model import Document, Spot
from .placement import Finding, Placement
from .story import Story, led, servers_of
from .width import AtOnce, copied_load, most_at_once, most_in_turn
from .words import carried, counted, in_words, label, rights_in_words

FOLDER = Path(__file__).parent

# The sizes of the lanes, in pixels; page.css has the heights too. A box is as wide as its text, within limits.
LANE, BOX_HEIGHT, GAP = 54, 42, 18
NARROWEST, WIDEST, LETTER = 124, 250, 6.5
# The number of columns from which an overview stands above the lanes, and its width.
MANY_COLUMNS, OVERVIEW_WIDTH = 9, 1340
# How many servers and shards are seen at once; the others are folded away.
SEEN = 24
# The sizes of the load charts.
CHART_WIDTH, CHART_HEIGHT, CHART_TOP, CHART_SIDE = 300, 92, 8, 6
# The width of a bar of the placement, and of a character in it.
BAR_WIDTH, CHARACTER = 380, 6.7

KINDS = {
    "prepare_add": "hand", "prepare_drop": "hand", "add": "add", "drop": "drop", "change": "role", "publish": "map", "unlist": "map", "signal": "signal",
    "wait": "signal",
}
LEGEND = [("add", "add a replica"), ("drop", "drop one"), ("hand", "hand a primary over"), ("role", "change a role"), ("map", "publish in the map"),
          ("signal", "signal or wait")]
REPLICAS = [("primary", "primary"), ("secondary", "secondary"), ("others", "replicas that stay")]
# How many streams are shown in words at once; of more each is folded away.
OPEN_STREAMS = 3


def esc(text: object) -> str:
    return html.escape(str(text), quote=True)


@dataclass(frozen=True)
class PlanPage:
    """A plan of a page: its story, what the program says of it, why it is refused, if it is, and the load that a copy moves in a second, if that is known."""

    story: Story
    verdict: Optional[str]
    findings: Sequence[Finding]
    rate: Optional[int] = None


# ---- lanes

@dataclass(frozen=True)
class Box:
    """Where a step stands: its column, its lane, and whether the plan comes to it. All boxes of a plan are equally wide."""

    column: int
    lane: int
    is_reached: bool
    width: int

    @property
    def left(self) -> int:
        return self.column * (self.width + GAP) + GAP // 2

    @property
    def right(self) -> int:
        return self.left + self.width

    @property
    def top(self) -> int:
        return self.lane * LANE + (LANE - BOX_HEIGHT) // 2

    @property
    def middle(self) -> int:
        return self.top + BOX_HEIGHT // 2


def box_width(story: Story) -> int:
    """Returns how wide the boxes of a plan are, for their texts to be read."""
    texts = [subject(story, Spot(number, at)) for number, stream in enumerate(story.plan.streams) for at in range(len(stream.code))]
    longest = max(map(len, texts), default=0)
    return round(min(WIDEST, max(NARROWEST, longest * LETTER + 24)))


def boxes_of(story: Story) -> Dict[Spot, Box]:
    """Returns where each step stands. Steps that the plan does not come to stand behind the others."""
    found, width = {}, box_width(story)
    for number, stream in enumerate(story.plan.streams):
        column = -1
        for position in range(len(stream.code)):
            spot = Spot(number, position)
            column = story.round_of.get(spot, max(column + 1, len(story.rounds)))
            found[spot] = Box(column, number, spot in story.round_of, width)
    return found


def is_broken(story: Story, spot: Spot) -> bool:
    way = story.walks[spot.stream]
    return bool(story.document and way.why and way.position == spot.position)


def subject(story: Story, spot: Spot) -> str:
    """Returns what a step is about, in one short line."""
    plan = story.plan
    it = plan.at(spot)
    if it.do in ("signal", "wait"):
        return carried(plan.signals[it.signal])
    return f"{it.shard} @ {it.server}" if it.server else it.shard


def box_html(story: Story, spot: Spot, box: Box) -> str:
    it = story.plan.at(spot)
    words = in_words(story.plan, spot, story.hold_before(spot))
    why = story.walks[spot.stream].why
    broken = is_broken(story, spot)
    classes = ["step", KINDS[it.do], *([] if box.is_reached else ["unreached"]), *(["broken"] if broken else [])]
    title = f"stream {spot.stream}, instruction {spot.position}: {label(it)}\n{words}" + (f"\n{why.word}: {why.text}" if broken and why else "")
    role = f" {it.role}" if it.do in ("add", "change") else ""
    round_number = f' data-round="{box.column + 1}"' if box.is_reached else ""
    signal = f' data-of-signal="{it.signal}"' if it.signal >= 0 else ""
    return (
        f'<div class="{" ".join(classes)}" data-step="{spot.stream}:{spot.position}"{round_number}{signal} style="left:{box.left}px;top:{box.top}px;width:{box.width}px" '
        f'title="{esc(title)}"><b>{esc(label(it))}<i>{esc(role)}</i></b><span>{esc(subject(story, spot))}</span></div>'
    )


def arrow_html(story: Story, boxes: Dict[Spot, Box], signal: int) -> str:
    plan, lines = story.plan, []
    for post in plan.spots("signal", signal):
        for wait in plan.spots("wait", signal):
            start, end = boxes[post], boxes[wait]
            x1, y1, x2, y2 = start.right, start.middle, end.left - 3, end.middle
            bend = max(24, min(90, abs(x2 - x1) // 2))
            title = f"signal {signal}: {carried(plan.signals[signal])}, from {post} to {wait}"
            lines.append(
                f'<path class="arrow" data-signal="{signal}" d="M{x1},{y1} C{x1 + bend},{y1} {x2 - bend},{y2} {x2},{y2}" marker-end="url(#head)"><title>{esc(title)}</title></path>'
            )
    return "".join(lines)


def thread_html(story: Story, boxes: Dict[Spot, Box]) -> str:
    """The line that joins a stream's steps; where it waits it is dotted."""
    lines = []
    for number, stream in enumerate(story.plan.streams):
        first = boxes.get(Spot(number, 0))
        if first and first.column:
            lines.append(f'<line class="thread waits" x1="0" x2="{first.left}" y1="{first.middle}" y2="{first.middle}"/>')
        for position in range(1, len(stream.code)):
            start, end = boxes[Spot(number, position - 1)], boxes[Spot(number, position)]
            waits = end.column > start.column + 1 or not end.is_reached
            lines.append(f'<line class="thread{" waits" if waits else ""}" x1="{start.right}" x2="{end.left}" y1="{end.middle}" y2="{end.middle}"/>')
    return "".join(lines)


def lane_label_html(story: Story, number: int) -> str:
    stream = story.plan.streams[number]
    calls = counted(sum(it.is_call for it in stream.code), "call")
    title = f"stream {number} holds: {'; '.join(rights_in_words(stream.holds)) or 'nothing'}"
    return f'<div class="lane" data-stream="{number}" title="{esc(title)}"><b>stream {number}</b><span>{calls}</span></div>'


def round_name(story: Story, column: int) -> str:
    return f"round {column + 1}" if column < len(story.rounds) else "not reached"


def lanes_html(story: Story, boxes: Dict[Spot, Box]) -> str:
    plan = story.plan
    columns = max([it.column for it in boxes.values()], default=0) + 1
    column = box_width(story) + GAP
    width, height = columns * column, max(1, len(plan.streams)) * LANE
    heads = "".join(f'<div style="width:{column}px">{round_name(story, it)}</div>' for it in range(columns))
    labels = "".join(lane_label_html(story, it) for it in range(len(plan.streams)))
    steps = "".join(box_html(story, spot, box) for spot, box in boxes.items())
    arrows = "".join(arrow_html(story, boxes, it) for it in range(len(plan.signals)))
    svg = f'<svg class="wires" width="{width}" height="{height}" aria-hidden="true">{thread_html(story, boxes)}{arrows}</svg>'
    return (
        f'<div class="lanes" tabindex="0"><div class="corner"></div><div class="heads" style="width:{width}px">{heads}</div>'
        f'<div class="labels">{labels}</div><div class="board" style="width:{width}px;height:{height}px">{svg}{steps}</div></div>'
    )


def overview_html(story: Story, boxes: Dict[Spot, Box]) -> str:
    """All steps as small cells, and the signals as lines between them."""
    columns, lanes = max([it.column for it in boxes.values()], default=0) + 1, len(story.plan.streams)
    if columns < MANY_COLUMNS:
        return ""
    wide, high = max(4.0, min(84.0, OVERVIEW_WIDTH / columns)), 7 if lanes > 24 else 11
    cells, lines = [], []
    for spot, box in boxes.items():
        it = story.plan.at(spot)
        title = f"stream {spot.stream}, {round_name(story, box.column)}: {label(it)}, {in_words(story.plan, spot, story.hold_before(spot))}"
        classes = f"{KINDS[it.do]}{'' if box.is_reached else ' unreached'}"
        cells.append(f'<rect class="{classes}" data-goto="{spot.stream}:{spot.position}" x="{box.column * wide:.1f}" y="{spot.stream * high}" width="{wide - 1:.1f}" '
                     f'height="{high - 1}"><title>{esc(title)}</title></rect>')
    for signal in range(len(story.plan.signals)):
        for post in story.plan.spots("signal", signal):
            for wait in story.plan.spots("wait", signal):
                start, end = boxes[post], boxes[wait]
                lines.append(f'<line x1="{(start.column + .5) * wide:.1f}" y1="{(start.lane + .5) * high}" x2="{(end.column + .5) * wide:.1f}" y2="{(end.lane + .5) * high}"/>')
    width, height = columns * wide, lanes * high
    return f'<div class="overview"><svg style="width:100%;max-width:{width:.0f}px" height="{height}" viewBox="0 0 {width:.0f} {height}" preserveAspectRatio="none" role="img" aria-label="all steps of the plan">' \
           f'{"".join(cells)}{"".join(lines)}</svg></div>'


# ---- load over the rounds

def chart_html(name: str, region: str, room: int, loads: List[int]) -> str:
    """The load of a server before the first round and after each, against its room."""
    most = max([room, *loads, 1])
    inner = CHART_HEIGHT - 2 * CHART_TOP
    step = (CHART_WIDTH - 2 * CHART_SIDE) / max(1, len(loads))

    def down(value: int) -> float:
        return round(CHART_TOP + inner * (1 - value / most), 1)

    points, x = [], float(CHART_SIDE)
    for load in loads:
        points += [f"{x:.1f},{down(load)}", f"{x + step:.1f},{down(load)}"]
        x += step
    line = " ".join(points)
    base = CHART_HEIGHT - CHART_TOP
    over = ' class="over"' if max(loads) > room else ""
    change = f"{loads[0]}" if loads[0] == loads[-1] else f"{loads[0]} → {loads[-1]}"
    title = f"{name}: load {change}, at most {max(loads)} of room {room}"
    return (
        f'<figure data-server="{esc(name)}"{over} style="--dx:{step:.2f}px"><figcaption><b>{esc(name)}</b> <em>{esc(region)}</em>'
        f'<span>load {change}, at most {max(loads)} of room {room}</span></figcaption>'
        f'<svg viewBox="0 0 {CHART_WIDTH} {CHART_HEIGHT}" role="img" aria-label="{esc(title)}"><title>{esc(title)}</title>'
        f'<polygon class="area" points="{CHART_SIDE},{base} {line} {x:.1f},{base}"/><polyline class="load" points="{line}"/>'
        f'<line class="room" x1="{CHART_SIDE}" x2="{CHART_WIDTH - CHART_SIDE}" y1="{down(room)}" y2="{down(room)}"/>'
        f'<line class="base" x1="{CHART_SIDE}" x2="{CHART_WIDTH - CHART_SIDE}" y1="{base}" y2="{base}"/>'
        f'<rect class="cursor" x="{CHART_SIDE}" y="{CHART_TOP - 4}" width="{step:.2f}" height="{inner + 8}"/></svg></figure>'
    )


def fullest_first(story: Story) -> List[str]:
    """Returns the servers that a plan touches; if they are many, those first that get the fullest."""
    names, loads, servers = story.servers_touched(), story.loads, story.before.document.servers
    if len(names) <= SEEN:
        return names
    return sorted(names, key=lambda it: -max(row[it] for row in loads) / max(1, servers[it].room))


def charts_html(story: Story) -> str:
    loads = story.loads
    servers = story.before.document.servers
    charts = [chart_html(it, servers[it].region, servers[it].room, [row[it] for row in loads]) for it in fullest_first(story)]
    return folded(charts, "server", '<div class="charts">', "</div>")


def folded(parts: Sequence[str], noun: str, start: str, end: str) -> str:
    """Returns the first parts, and the others folded away."""
    more = f'<details class="more"><summary>{counted(len(parts) - SEEN, f"more {noun}")}</summary>{start}{"".join(parts[SEEN:])}{end}</details>' if len(parts) > SEEN else ""
    return f'{start}{"".join(parts[:SEEN])}{end}{more}'


# ---- the placement before and after

def segments(placement: Placement, server: str, shards: AbstractSet[str]) -> List[Tuple[str, str, int]]:
    """Returns the replicas of these shards at a server, and the others as one: a name, a state, and the load."""
    document = placement.document
    own = [(it, state, document.shards[it].load) for it, state in placement.replicas[server].items() if it in shards]
    rest = [it for it in placement.replicas[server] if it not in shards]
    if rest:
        own.append((counted(len(rest), "other"), "others", sum(document.shards[it].load for it in rest)))
    return own


def bar_html(placement: Placement, server: str, shards: AbstractSet[str], other: Optional[Placement]) -> str:
    """A bar as long as a server's room, filled by its replicas. Those that the other placement has otherwise are marked."""
    row, numbers = placement.document.servers[server], placement.numbers(server)
    scale = BAR_WIDTH / max(numbers.room, numbers.load, 1)
    parts = []
    for name, state, load in segments(placement, server, shards):
        width = load * scale
        text = name if len(name) * CHARACTER + 10 <= width else ""
        is_same = other is None or state == "others" or other.cells[name].get(server) == state
        title = f"{name}: {state}, load {load}"
        parts.append(f'<i class="replica {state}{"" if is_same else " moves"}" style="width:{width:.1f}px" title="{esc(title)}">{esc(text)}</i>')
    down = '<em class="down">down</em>' if row.down else ""
    return (
        f'<div class="bar"><div class="tank" style="width:{max(numbers.room * scale, 2):.1f}px"></div><div class="fill">{"".join(parts)}</div></div>'
        f'<span class="sum">{numbers.load} of {numbers.room}{down}</span>'
    )


def servers_html(placements: Sequence[Placement], names: Sequence[str], shards: Sequence[str]) -> str:
    """A row for each server, with a bar for each of the placements."""
    heads = ["before", "after"] if len(placements) > 1 else ["now"]
    rows, known = [], set(shards)
    for name in names:
        region = placements[0].document.servers[name].region
        bars = []
        for it in placements:
            other = next((one for one in placements if one is not it), None)
            bars.append(f"<td>{bar_html(it, name, known, other)}</td>")
        rows.append(f'<tr data-server="{esc(name)}"><th scope="row"><b>{esc(name)}</b><em>{esc(region)}</em></th>{"".join(bars)}<td class="number">{" → ".join(map(str, led(name, placements)))}</td></tr>')
    head = f'<tr><th>server</th>{"".join(f"<th>{it}</th>" for it in heads)}<th>primaries</th></tr>'
    return folded(rows, "server", f'<div class="wide"><table class="servers">{head}', "</table></div>")


def replicas_in_words(placement: Placement, shard: str) -> str:
    found = []
    for server, state in placement.cells[shard].items():
        listed = " class=\"listed\" title=\"the published map lists this server\"" if placement.listed[shard] == server else ""
        found.append(f'<span class="chip {state}"><b{listed}>{esc(server)}</b> {state}</span>')
    return "".join(found) or '<span class="chip">none</span>'


def shards_html(placements: Sequence[Placement], shards: Sequence[str]) -> str:
    heads = ["before", "after"] if len(placements) > 1 else ["now"]
    rows = []
    for name in shards:
        row = placements[0].document.shards[name]
        live = " → ".join(dict.fromkeys(str(len(it.live(name))) for it in placements))
        cells = "".join(f"<td>{replicas_in_words(it, name)}</td>" for it in placements)
        rows.append(f'<tr data-shard="{esc(name)}"><th scope="row"><b>{esc(name)}</b></th><td class="number">{row.load}</td><td class="number">{live}, {row.floor}</td>{cells}</tr>')
    head = f'<tr><th>shard</th><th>load</th><th>live, floor</th>{"".join(f"<th>{it}</th>" for it in heads)}</tr>'
    return folded(rows, "shard", f'<div class="wide"><table class="shards">{head}', "</table></div>")


# ---- the parts of a page

# A number, with its noun.
Tile = Tuple[int, str]


def badge_html(verdict: Optional[str]) -> str:
    if verdict is None:
        return '<span class="badge unknown">not checked</span>'
    kind = "accepted" if verdict.startswith("accepted: ") else "refused"
    return f'<span class="badge {kind}">{esc(verdict)}</span>'


def tiles_html(tiles: Sequence[Tile]) -> str:
    return '<div class="tiles">' + "".join(f'<div class="tile"><b>{count}</b><span>{tile_name(count, name)}</span></div>' for count, name in tiles) + "</div>"


def at_once_tiles(at_once: Optional[AtOnce], rate: Optional[int]) -> List[Tile]:
    """How many copies are made at once, and how long they take."""
    if at_once is None:
        return []
    found = [(at_once.in_all, "most copies at once"), (at_once.at_server, "most at a server"), (at_once.chain, "load copied one after the other")]
    return found + ([(-(-at_once.chain // rate), "second at least")] if rate else [])


def change_tiles(stories: Sequence[Story]) -> List[Tile]:
    """What becomes of the replicas, and what is copied."""
    changes = [it for story in stories for it in story.changes()]
    added, dropped = (sum(it is None for it in ends) for ends in ([it.before for it in changes], [it.after for it in changes]))
    copied = sum(copied_load(it.plan, it.document) for it in stories if it.document)
    return [(added, "replica to add"), (dropped, "replica to drop"), (copied, "load to copy")]


def plan_tiles(plan: PlanPage) -> List[Tile]:
    """What a plan comes to, in numbers."""
    story = plan.story
    found = [(len(story.plan.streams), "stream"), (story.plan.calls, "call"), (len(story.plan.signals), "signal"), (len(story.rounds), "round")]
    if story.document:
        found += at_once_tiles(most_at_once(story.plan, story.document), plan.rate) + change_tiles([story])
    return found


def tile_name(count: int, name: str) -> str:
    """Returns the noun of a count, whose first word is in the plural unless it is one."""
    noun, *rest = name.split(" ")
    return " ".join([noun if count == 1 or noun in ("load", "most") else f"{noun}s", *rest])


def findings_html(findings: Sequence[Finding]) -> str:
    if not findings:
        return ""
    parts = []
    for it in findings:
        details = "".join(f"<li>{esc(one)}</li>" for one in it.details)
        parts.append(f"<div><code>{esc(it.line)}</code><p>{esc(it.text)}</p><ul>{details}</ul></div>")
    return f'<section class="findings"><h2>Why it is refused</h2>{"".join(parts)}<p class="note">Below stands what it asks for.</p></section>'


def signals_html(story: Story) -> str:
    plan = story.plan
    if not plan.signals:
        return ""
    rows = ["<tr><th>signal</th><th>hands on</th><th>posted at</th><th>waited for at</th></tr>"]
    for number, parcel in enumerate(plan.signals):
        posts, waits = ("; ".join(map(str, plan.spots(it, number))) or "nowhere" for it in ("signal", "wait"))
        rows.append(f'<tr data-signal-row="{number}"><th scope="row">{number}</th><td>{esc(carried(parcel))}</td><td>{esc(posts)}</td><td>{esc(waits)}</td></tr>')
    return f'<section><details{" open" if len(plan.signals) <= 12 else ""}><summary><h2>Signals</h2></summary><div class="wide"><table>{"".join(rows)}</table></div></details></section>'


def legend_html(keys: Sequence[Tuple[str, str]]) -> str:
    """What the colours mean."""
    spans = "".join(f'<span class="key {kind}">{text}</span>' for kind, text in keys)
    return f'<div class="legend">{spans}</div>'


def words_html(story: Story) -> str:
    """Each stream's rights and steps in words."""
    parts, is_open = [], " open" if len(story.plan.streams) <= OPEN_STREAMS else ""
    for number, stream in enumerate(story.plan.streams):
        holds = "".join(f"<li>{esc(it)}</li>" for it in rights_in_words(stream.holds)) or "<li>nothing</li>"
        steps = "".join(
            f"<li><b>{esc(label(it))}</b> {esc(in_words(story.plan, Spot(number, at), story.hold_before(Spot(number, at))))}</li>" for at, it in enumerate(stream.code)
        )
        parts.append(f'<details class="words"{is_open}><summary>Stream {number}</summary><h4>holds at its beginning</h4><ul>{holds}</ul><h4>does</h4><ol start="0">{steps}</ol></details>')
    button = "" if is_open else '<p class="note"><button type="button" class="all">open all</button></p>'
    return f'<section><h2>In words</h2>{button}{"".join(parts)}</section>' if parts else ""


def player_html(story: Story) -> str:
    last = len(story.rounds)
    return (
        f'<div class="player"><button type="button" aria-label="play">▶</button><input type="range" min="0" max="{last}" value="0" aria-label="round">'
        f'<output>before the plan</output></div>' if last else ""
    )


def ends_html(ends: Sequence[Placement], names: Sequence[str], shards: Sequence[str]) -> str:
    return f'<section><h2>Servers, before and after</h2><p class="note">A bar is as long as the server\'s room. Outlined replicas come, go, or change their role. ' \
           f'Point at one for its name.</p>{legend_html(REPLICAS)}{servers_html(ends, names, shards)}</section>'


def campaign_html(stories: Sequence[Story], heading: str, rate: Optional[int]) -> str:
    """What plans come to of which each is of the placement that the one before leaves."""
    at_once = most_in_turn([(it.plan, it.document) for it in stories if it.document])
    tiles = [(len(stories), "plan"), (sum(it.plan.calls for it in stories), "call"), *at_once_tiles(at_once, rate), *change_tiles(stories)]
    touched = {name for it in stories for name in it.shards_touched()}
    shards = [name for name in stories[0].before.document.shards if name in touched]
    body = ends_html([stories[0].before, stories[-1].after], servers_of(stories), shards)
    return f'<article class="plan"><header><h1>{esc(heading)}</h1></header>{tiles_html(tiles)}{body}</article>'


def plan_html(plan: PlanPage, heading: str) -> str:
    story = plan.story
    boxes = boxes_of(story)
    head = f'<article class="plan"><header><h1>{esc(heading)}</h1>{badge_html(plan.verdict)}</header>{tiles_html(plan_tiles(plan))}{findings_html(plan.findings)}'
    lanes = f'<section><h2>Streams</h2><p class="note">In each round, every stream that is able to makes one step. An arrow is a signal, which hands rights on.</p>' \
            f'{legend_html(LEGEND)}{player_html(story)}{overview_html(story, boxes)}{lanes_html(story, boxes)}</section>'
    body = ""
    if story.document:
        ends = [story.before, story.after]
        names, shards = fullest_first(story), story.shards_touched()
        if names:
            body += f'<section><h2>Load over the rounds</h2><p class="note">The dashed line is the server\'s room.</p>{charts_html(story)}</section>'
            body += ends_html(ends, names, shards)
        if shards:
            body += f"<section><h2>Shards, before and after</h2>{shards_html(ends, shards)}</section>"
    return head + lanes + body + signals_html(story) + words_html(story) + "</article>"


def placement_html(document: Document, heading: str, findings: Sequence[Finding]) -> str:
    """A document without a plan."""
    placement = Placement(document)
    shards = list(document.shards)
    return (
        f'<article class="plan"><header><h1>{esc(heading)}</h1><span class="badge unknown">no plan</span></header>{findings_html(findings)}'
        f"<section><h2>Servers</h2>{servers_html([placement], list(document.servers), shards)}</section>"
        f"<section><h2>Shards</h2>{shards_html([placement], shards)}</section></article>"
    )


def page(title: str, articles: Sequence[str]) -> str:
    """Returns a whole page."""
    style, script = (FOLDER / "page.css").read_text(encoding="utf-8"), (FOLDER / "page.js").read_text(encoding="utf-8")
    marker = '<svg width="0" height="0" style="position:absolute" aria-hidden="true"><defs><marker id="head" viewBox="0 0 8 8" refX="7" refY="4" markerWidth="7" ' \
             'markerHeight="7" orient="auto"><path d="M0,0 L8,4 L0,8 z" fill="context-stroke"/></marker></defs></svg>'
    return (
        '<!doctype html>\n<html lang="en"><head><meta charset="utf-8"><meta name="viewport" content="width=device-width, initial-scale=1">'
        '<meta name="color-scheme" content="light dark">'
        f"<title>{esc(title)}</title><style>\n{style}</style></head><body>{marker}<main>{''.join(articles)}</main>"
        f"<footer>Made by <code>smplan-tools show</code>. The verdict is the program's; the rounds are one schedule of many.</footer>"
        f"<script>\n{script}</script></body></html>\n"
    )
