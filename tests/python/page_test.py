"""page_test [FOLDER]: loads pages of `smplan-tools show --html` in a headless browser: see scripts/check/pages.

Of each page: every stream, signal, step and touched server is in it, its scripts do nothing wrong, it asks no network, and no two texts lie over each
other. First it shows that it would find each of these in a page that has them.
"""
import json
import pathlib
import sys
import tempfile
from typing import Any, List, Optional, Tuple

import large
from browser import Browser, NoBrowser, find_browser
from smplan.files import read_plan_or_document
from smplan.page import MANY_COLUMNS, boxes_of
from smplan.show import Picture, page_of, pictures_or_none

ROOT = pathlib.Path(__file__).resolve().parents[2]
# The texts that are seen, each with its place, and the pairs that lie over each other.
OVERLAPS = """(() => {
  const seen = [];
  const walker = document.createTreeWalker(document.body, NodeFilter.SHOW_TEXT);
  for (let node = walker.nextNode(); node; node = walker.nextNode()) {
    const holder = node.parentElement;
    if (!node.data.trim() || ['SCRIPT', 'STYLE', 'TITLE'].includes(holder.tagName) || !holder.checkVisibility()) continue;
    const range = document.createRange();
    range.selectNodeContents(node);
    for (const it of range.getClientRects()) {
      let box = { left: it.left, right: it.right, top: it.top, bottom: it.bottom };
      for (let above = holder; above && above !== document.body; above = above.parentElement) {
        if (getComputedStyle(above).overflowX === 'visible') continue;
        const clip = above.getBoundingClientRect();
        box = { left: Math.max(box.left, clip.left), right: Math.min(box.right, clip.right), top: Math.max(box.top, clip.top), bottom: Math.min(box.bottom, clip.bottom) };
      }
      if (box.right - box.left > 1 && box.bottom - box.top > 1) seen.push({ ...box, node, text: node.data.trim() });
    }
  }
  seen.sort((a, b) => a.top - b.top);
  const found = [];
  for (let i = 0; i < seen.length && found.length < 5; i++)
    for (let j = i + 1; j < seen.length && seen[j].top < seen[i].bottom - 4; j++) {
      if (seen[i].node === seen[j].node) continue;
      const across = Math.min(seen[i].right, seen[j].right) - Math.max(seen[i].left, seen[j].left);
      const down = Math.min(seen[i].bottom, seen[j].bottom) - Math.max(seen[i].top, seen[j].top);
      if (across > 1.5 && down > 4) found.push(seen[i].text.slice(0, 40) + ' / ' + seen[j].text.slice(0, 40));
    }
  return { texts: seen.length, found };
})()"""
COUNTS = """({
  plans: [...document.querySelectorAll('article.plan')].map((plan) => ({
    streams: [...plan.querySelectorAll('[data-stream]')].map((it) => Number(it.dataset.stream)),
    signals: [...plan.querySelectorAll('[data-signal-row]')].map((it) => Number(it.dataset.signalRow)),
    arrows: [...plan.querySelectorAll('path[data-signal]')].map((it) => Number(it.dataset.signal)),
    steps: [...plan.querySelectorAll('[data-step]')].map((it) => it.dataset.step),
    overview: [...plan.querySelectorAll('[data-goto]')].map((it) => it.dataset.goto),
    charts: [...plan.querySelectorAll('figure[data-server]')].map((it) => it.dataset.server),
    servers: [...plan.querySelectorAll('tr[data-server]')].map((it) => it.dataset.server),
    shards: [...plan.querySelectorAll('tr[data-shard]')].map((it) => it.dataset.shard),
  })),
  ground: getComputedStyle(document.body).backgroundColor,
  wide: document.documentElement.scrollWidth > innerWidth + 1,
})"""
PLAY = """(() => {
  const wrong = [];
  for (const slider of document.querySelectorAll('.player input')) {
    slider.value = slider.max;
    slider.dispatchEvent(new Event('input'));
    const plan = slider.closest('article.plan');
    if (!plan.querySelector('.step.now')) wrong.push('no step of the last round is marked');
    if (!plan.querySelector('.player output').textContent.includes(slider.max)) wrong.push('the round is not told');
    plan.querySelector('.player button').click();
    plan.querySelector('.player button').click();
    slider.value = 0;
    slider.dispatchEvent(new Event('input'));
  }
  return wrong;
})()"""


def expected(picture: Picture) -> Any:
    """What a plan's part of a page has to have."""
    plan, story = picture.story.plan, picture.story
    wires = [k for k in range(len(plan.signals)) for _ in plan.spots("signal", k) for _ in plan.spots("wait", k)]
    named = bool(story.document)
    steps = [f"{i}:{at}" for i, stream in enumerate(plan.streams) for at in range(len(stream.code))]
    columns = max([it.column for it in boxes_of(story).values()], default=0) + 1
    return {
        "streams": list(range(len(plan.streams))),
        "signals": list(range(len(plan.signals))),
        "arrows": wires,
        "steps": steps,
        "overview": steps if columns >= MANY_COLUMNS else [],
        "charts": story.servers_touched() if named else [],
        "servers": story.servers_touched() if named else [],
        "shards": story.shards_touched() if named else [],
    }


def faults_of(browser: Browser, path: str, wanted: Optional[List[Any]], is_dark: bool) -> List[str]:
    """What is wrong with a page, which has these plans, or a document without one."""
    browser.load(path, is_dark)
    counts, overlaps = browser.value(COUNTS), browser.value(OVERLAPS)
    found = [f"two texts lie over each other: {it}" for it in overlaps["found"]]
    found += ["no text is seen"] if overlaps["texts"] < 3 else []
    found += ["the page is wider than its window"] if counts["wide"] else []
    if wanted is not None:
        for number, (plan, want) in enumerate(zip(counts["plans"], wanted)):
            found += [f"plan {number}: {key} are {str(plan[key])[:80]}, not {str(it)[:80]}" for key, it in want.items() if sorted(plan[key]) != sorted(it)]
        found += [f"the page has {len(counts['plans'])} plans, not {len(wanted)}"] if len(counts["plans"]) != len(wanted) else []
    elif not counts["plans"] or not counts["plans"][0]["servers"]:
        found.append("no server is seen")
    dark = sum(map(int, counts["ground"].strip("rgb()").split(","))) < 300
    found += [f"the ground is {counts['ground']}"] if dark != is_dark else []
    return found + browser.value(PLAY) + browser.errors()


def finds_what_is_wrong(browser: Browser, page: str, wanted: List[Any], folder: str) -> List[str]:
    """The faults that are planted in a page and not found."""
    planted = [
        ("a script that fails", "</body>", "<script>null.no</script></body>"),
        ("a request", "</body>", '<img src="http://127.0.0.1:9/x.png"></body>'),
        ("a stream that is missing", 'data-stream="0"', "data-other"),
        ("a signal that is missing", 'data-signal-row="0"', "data-other"),
        ("an arrow that is missing", 'class="arrow" data-signal="0"', "data-other"),
        ("a step that is missing", 'data-step="0:0"', "data-other"),
        ("a server that is missing", "<figure data-server=", "<figure data-other="),
        ("texts over each other", "</head>", "<style>.step{left:8px!important}</style></head>"),
        ("a page that is too wide", "</body>", '<div style="width:3000px">wide</div></body>'),
        ("a page that is light in the dark", "</head>", "<style>body{background:#fff!important}</style></head>"),
        ("a player that does nothing", 'slider.addEventListener("input"', 'slider.addEventListener("nothing"'),
    ]
    missed = []
    for what, old, new in planted:
        path = pathlib.Path(folder) / "planted.html"
        if old not in page:
            missed.append(f"{what} cannot be planted")
            continue
        path.write_text(page.replace(old, new), encoding="utf-8")
        if not faults_of(browser, str(path), wanted, is_dark=True):
            missed.append(f"it does not find {what}")
    return missed


def documents(folder: str) -> List[Tuple[str, str]]:
    """The names and the paths of what pages are made of: all examples that are read, their plans alone, and large plans."""
    found = [(path.stem, str(path)) for path in sorted((ROOT / "examples").glob("*.json")) if path.stem != "unknown-server"]
    alone = json.loads((ROOT / "examples/plan-two-streams.json").read_text())["plan"]
    for name, value in [("plan-alone", alone), ("wired-64-streams", large.wired()), ("drain-64-streams", large.draining())]:
        path = pathlib.Path(folder) / f"{name}.json"
        path.write_text(json.dumps(value))
        found.append((name, str(path)))
    return found


def main(shots: Optional[str]) -> int:
    browser_path = find_browser()
    if browser_path is None:
        raise NoBrowser("there is no chromium: apt-get install chromium")
    count, wrong = 0, []  # type: int, List[str]
    with tempfile.TemporaryDirectory(prefix="page-test-") as folder, Browser(browser_path) as browser:
        for name, document in documents(folder):
            text = read_plan_or_document(document)
            pictures = pictures_or_none(text)
            path = pathlib.Path(folder) / f"{name}.html"
            path.write_text(page_of(text, pictures, name), encoding="utf-8")
            wanted = [expected(it) for it in pictures] if pictures else None
            if name == "plan-two-streams":
                wrong += finds_what_is_wrong(browser, path.read_text(encoding="utf-8"), wanted or [], folder)
            for is_dark in (False, True):
                count += 1
                wrong += [f"{name}, {'dark' if is_dark else 'light'}: {it}" for it in faults_of(browser, str(path), wanted, is_dark)]
                if shots:
                    browser.screenshot(f"{shots}/{name}-{'dark' if is_dark else 'light'}.png")
    print("\n".join(wrong))
    print(f"pages: {count} loaded, {len(wrong)} faults")
    return 1 if wrong or not count else 0


# The exit status that says that there is no browser, or that it does not start.
NO_BROWSER = 77

if __name__ == "__main__":
    try:
        sys.exit(main(sys.argv[1] if len(sys.argv) > 1 else None))
    except NoBrowser as why:
        print(f"check/pages: {why}")
        sys.exit(NO_BROWSER)
