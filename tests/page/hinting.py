"""Hints on the board: one step at a press, lit and struck, with the player's notes; and cells that are tried out."""
from page.driver import Keys

# A puzzle, and the same before a hint of 15 steps.
SIMPLE = "3x3:2j1_2a6b8_9_8c1b3a1a8_6j2_8e7_9a3b2b9_5c1d3d4a7b5b"
HARD = "3x3:2_3a9_8_7e1_2_3_6b8_9_8c1a2_3a1a8_6_2f3a4_2_8a8a2a7_9a3b2_8a9_5_3b1d3_8c4a7a8_5b"
TRIAL = "3x3:aBBa1aBb"
HIGHEST = 298  # pixels of the sheet on a phone


def try_hinting(page, server, tally):
    for part in (one_by_one, notes, witnesses, tried_out, to_the_end, near):
        part(page, server, tally)


def press(page):
    before = page.text("#answer")
    page.click("#hint")
    page.until("tells the next step", lambda: page.text("#answer") not in ("", before) and page.is_ready())
    return page.text("#answer")


def gone(page):
    """The numbers that a step takes away, by cell."""
    return page.script("return Object.fromEntries([...document.querySelectorAll('#stage .cell')].flatMap((cell, place) => "
                       "cell.dataset.struck ? [[place, cell.dataset.struck]] : []))")


def one_by_one(page, _, tally):
    """Each press of a long hint tells one step, whose house is lit and whose numbers are struck, and hides no button."""
    page.size(390, 664)
    page.open("solo", HARD)
    first = press(page)
    tally.true(f"where to look first: {first}", first.startswith("Look at block 1") and "15 steps" in first)
    tally.true("its house is lit", page.having("house"))
    for number in range(1, 15):
        said = press(page)
        head = f"Step {number} of 15. "
        tally.true(f"step {number}: {said}", said.startswith(head) and said.count("Step ") == 1)
        name = said.removeprefix(head).partition(":")[0]
        tally.true(f"its name: {name}", name in ("Pointing", "Claiming", "Naked triple", "Two-string kite", "Alternating chain"))
        tally.true(f"step {number} strikes: {gone(page)}", page.having("struck") == [int(place) for place in gone(page)] != [])
        tally.true(f"step {number} lights its house", page.having("house"))
        page.script("scrollTo(0, 0)")
        high, above = page.script("const { height, top } = document.querySelector('#sheet').getBoundingClientRect();"
                                  "return [height, top - document.querySelector('#hint').getBoundingClientRect().bottom]")
        tally.true(f"the sheet of step {number}: {high}, {above}", high <= HIGHEST and above >= 0)
    said = press(page)
    tally.true(f"the last step: {said}", said.startswith("Step 15 of 15. Hidden single: Row 8, column 4 is 6."))
    page.size(1280, 800)


def notes(page, _, tally):
    """What a step strikes goes out of the player's notes; a hint then goes by these notes, and says so."""
    page.open("solo", HARD)
    page.click("#allNotes")
    press(page)
    press(page)
    struck = {int(place): numbers.split() for place, numbers in gone(page).items()}
    place = next(iter(struck))
    had = set(page.signs()[place].removeprefix("notes ").split(",")[0].split())
    press(page)
    has = set(page.signs()[place].removeprefix("notes ").split(",")[0].split())
    tally.same("notes that are struck", had - has, set(struck[place]))
    while "Press Hint again" in press(page):
        pass
    page.keys(Keys.ESCAPE)
    again = page.presses()
    tally.true(f"a hint by notes: {again}", len(again) < 15)
    tally.true(f"it says so: {again}", any("your notes" in said for said in again))
    page.click("#undo")
    tally.true("one step of undo", page.text("#answer") == "")


def witnesses(page, _, tally):
    """The numbers that bar the others are lit."""
    page.open("solo", SIMPLE)
    said = page.presses()[-1]
    number = said.partition(" is ")[2][0]
    lit = page.having("witness")
    tally.true(f"{said}: {lit}", lit and all(page.signs()[place].startswith(number) for place in lit))
    tally.true("a screen reader hears it", "bars the others" in page.signs()[lit[0]])


def tried_out(page, _, tally):
    """A cell that is tried out shows what follows, a cell at each press, and then what breaks."""
    page.open("lightup", TRIAL)
    said, shown = [press(page)], []
    while "Press Hint again" in said[-1]:
        said.append(press(page))
        shown.append(len(page.shown()))
    tally.true(f"tried out: {said}", said[0].startswith("No single step") and "Suppose row" in said[1] and "But then" in said[-2])
    tally.true(f"more and more is shown: {shown}", shown[:-1] == sorted(shown[:-1]) and shown[0] == 1 and max(shown) > 1)
    tally.same("the cell that was tried", page.marked(), [8])


def to_the_end(page, _, tally):
    """A button leaves the steps of a long hint out."""
    page.open("solo", HARD)
    press(page)
    page.click("#rest")
    tally.true("the last step at once", page.text("#answer").startswith("Step 15 of 15."))


def near(page, _, tally):
    """Of hints that are alike the one near the last move is told."""
    solved = "534678912672195348198342567859761423426853791713924856961537284287419635345286179"
    row = lambda blank: "_".join(solved[blank[0] + 1:blank[1]])
    text = f"3x3:a{row((0, 80))}a"
    for at, wanted in ((10, 0), (70, 80)):
        page.open("solo", text)
        page.script("const [at] = arguments; return import(`${location.origin}/table.js`)"
                    ".then(({ table }) => { table.play.done.push([[at, '.', '.']]) })", at)
        page.presses()
        tally.same(f"the hint near {at}", page.marked(), [wanted])
