"""The answers of the program `puzzles`, with types.

    import puzzles

    puzzles.solve("pattern", "5x1:1/1//1/1/2.2").grid               ('##.##',)
    puzzles.check("tents", "2x2:_c,0,1,1,0", ["T^", "^."]).broken   'touch 1,0'
    puzzles.grade("lightup", "3x3:aBBa1aBb").trials                 4
    puzzles.generate("solo", "3x3", seed=7).id                      '3x3:..'

    for text, answer in puzzles.solve_all("solo", open("ids.txt")):     tens of thousands a second
        print(answer.verdict, text)

    for text, answer in puzzles.grade_all("solo", open("ids.txt")):     on all cores
        print(answer.grade, answer.trials, text)

    with puzzles.Worker("solo", budget=20_000, seconds=2) as worker:    a kept process behind a page
        worker.solve("3x3:..").verdict

    puzzles.Library("libpuzzles.so").solve("solo", "3x3:..")        the same calls in this process, without a clock

A game is `solo`, `pattern`, `lightup` or `tents`. Times are seconds, budgets are trials. A text that is
no puzzle is no error: its verdict is `Verdict.REFUSED`, and `refusal` tells why. `NoAnswer` is raised
where there is no answer, and `Late`, a kind of it, where the clock ended the program. `puzzles.ids` reads,
writes and draws IDs without the program.

The program is found beside this Python, or on the path, or where the variable PUZZLES says.
"""
from .answers import Answer, Checked, Grade, Graded, Grid, Made, Solved, Verdict
from .calls import check, generate, grade, solve
from .grades import grade_all
from .in_process import Library
from .process import Game, Late, NoAnswer, program
from .worker import Worker, solve_all

__all__ = ["Answer", "Checked", "Game", "Grade", "Graded", "Grid", "Late", "Library", "Made", "NoAnswer", "Solved", "Verdict",
           "Worker", "check", "generate", "grade", "grade_all", "program", "solve", "solve_all"]
