"""The program of cases, `weslc_cases`, run on one case of the parser alone."""
import pathlib

DATA = pathlib.Path(__file__).resolve().parent.parent / "crates" / "weslc_cases" / "data"


def fill(folder, case):
    """Puts all files that the program reads into a folder: the parser's has this case, the others have none."""
    for file in DATA.iterdir():
        empty = "[]" if file.suffix == ".json" else ""
        pathlib.Path(folder, file.name).write_text(empty, encoding="utf-8")
    pathlib.Path(folder, "parser.txt").write_text(case + "\n", encoding="utf-8")
