"""What a click on large boards costs, and how many waves the first board takes.

Times are those of the processor in the page's thread, so that other work of the machine doesn't count.
"""
import re
import statistics

from page.server import WEB

BOARDS = [("lightup", "120x120:" + "z" * 553 + "v", 50), ("pattern", "120x120:" + "/" * 239, 50),
          ("lightup", "30x30:" + "z" * 34 + "p", 8), ("pattern", "30x30:" + "/" * 59, 8),
          ("tents", "30x30:" + "z" * 35 + "y" + ",0" * 60, 8)]
CLICKS = 25
CLICK = """
    const [place, done] = arguments, cell = document.querySelectorAll('#stage [role=gridcell]')[place];
    for (const [kind, more] of [['pointerdown', { pointerType: 'mouse', button: 0, buttons: 1 }], ['pointerup', {}]]) {
      cell.dispatchEvent(new PointerEvent(kind, { bubbles: true, ...more }));
    }
    requestAnimationFrame(() => setTimeout(done));
"""


def try_speed(page, server, tally):
    """The work of a click is bounded, and only what it changes is touched."""
    page.driver.execute_cdp_cmd("Performance.enable", {"timeDomain": "threadTicks"})
    for game, text, most in BOARDS:
        page.open(game, text)
        costs = [cost(page, 7 * k) for k in range(1, CLICKS + 1)]
        work, whole = ([each[k] for each in costs] for k in range(2))
        print(f"a click on {game} {text.partition(':')[0]}: median {statistics.median(work):.1f} ms, most {max(work):.1f} ms;"
              f" with styles, layout and paint median {statistics.median(whole):.0f} ms", flush=True)
        tally.true(f"a click on {game} {text[:8]}: {statistics.median(work)} ms", statistics.median(work) < most)
    page.driver.execute_cdp_cmd("Performance.disable", {})
    preloads(page, tally)


def cost(page, place):
    """Milliseconds of a click: of the page's code, and of all until it is painted."""
    before = metrics(page)
    page.driver.execute_async_script(CLICK, place)
    after = metrics(page)
    return [1000 * (after[name] - before[name]) for name in ("ScriptDuration", "TaskDuration")]


def metrics(page):
    told = page.driver.execute_cdp_cmd("Performance.getMetrics", {})
    return {one["name"]: one["value"] for one in told["metrics"]}


def preloads(page, tally):
    """Each module that the first board needs is asked for by the page itself, and none besides."""
    html = (WEB / "index.html").read_text()
    named = set(re.findall(r'<link rel="modulepreload" href="([^"]+)">', html)) | {"page.js"}
    needed, fresh = set(), ["page.js"]
    while fresh:
        name = fresh.pop()
        if name in needed:
            continue
        needed.add(name)
        found = re.findall(r'^(?:import|export) [^;]*?"(\.{1,2}/[^"]+)";', (WEB / name).read_text(), re.MULTILINE)
        fresh += [str((WEB / name).parent.joinpath(path).resolve().relative_to(WEB)) for path in found]
    tally.same("modules of the first board", sorted(named), sorted(needed))
