"""A plan as a Mermaid chart."""
from typing import List

from .model import Spot
from .story import Story
from .words import carried, in_words, label


def quoted(text: str) -> str:
    """Returns a text as Mermaid takes it in a node."""
    return text.replace('"', "#quot;")


def chart(story: Story) -> str:
    """Returns a flowchart: each stream is a box of its steps, and each signal an arrow from its post to its wait."""
    plan = story.plan
    lines = ["flowchart LR"]
    for number, stream in enumerate(plan.streams):
        lines += [f'  subgraph stream{number}["stream {number}"]', "    direction TB"]
        for position, it in enumerate(stream.code):
            spot = Spot(number, position)
            text = label(it) if it.do in ("signal", "wait") else f"{label(it)}: {in_words(plan, spot, story.hold_before(spot))}"
            lines.append(f'    s{number}_{position}["{position} {quoted(text)}"]')
        names = [f"s{number}_{position}" for position in range(len(stream.code))]
        lines += [f"    {' --> '.join(names)}"] if len(names) > 1 else []
        lines.append("  end")
    lines += arrows(story)
    return "\n".join(lines)


def arrows(story: Story) -> List[str]:
    plan, lines = story.plan, []
    for signal, parcel in enumerate(plan.signals):
        for post in plan.spots("signal", signal):
            for wait in plan.spots("wait", signal):
                text = quoted(f"signal {signal}: {carried(parcel)}")
                lines.append(f'  s{post.stream}_{post.position} -. "{text}" .-> s{wait.stream}_{wait.position}')
    return lines
