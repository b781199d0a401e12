"""Small trees of crates, over which a script of the repository is run."""
import pathlib
import subprocess
import tempfile
from typing import Dict, List, Tuple

ROOT = pathlib.Path(__file__).resolve().parents[2]


def run_over(files: Dict[str, str], script: str, *words: str) -> Tuple[int, List[str]]:
    """Returns the status of a script over a tree of these files, and the lines that it prints."""
    with tempfile.TemporaryDirectory(prefix="smplan-tree-") as room:
        for path, text in files.items():
            file = pathlib.Path(room) / path
            file.parent.mkdir(parents=True, exist_ok=True)
            file.write_text(text, encoding="utf-8")
        done = subprocess.run([ROOT / "scripts" / script, *words, room], stdout=subprocess.PIPE, stderr=subprocess.STDOUT, text=True, check=False)
    return done.returncode, done.stdout.splitlines()


def found_by(script: str, files: Dict[str, str]) -> Tuple[int, List[str]]:
    """Returns the status of a script over a tree, and the lines before the last one, which sums up."""
    status, lines = run_over(files, script)
    return status, lines[:-1]
