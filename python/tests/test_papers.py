"""The papers, as far as a program can check them."""
import re
import subprocess
from pathlib import Path

import pytest

ROOT = Path(__file__).resolve().parents[2]
PAPERS = [*ROOT.glob("*.md"), *ROOT.glob("docs/*.md"), *ROOT.glob("*/README.md")]


def test_definitions_are_where_the_papers_say():
    """docs/RULES.md names each by its file; docs/CLAIMS.md lists the files with their lines."""
    done = subprocess.run([ROOT / "tools" / "definitions", "--check"], cwd=ROOT, capture_output=True, text=True)
    assert done.returncode == 0, done.stderr


def test_wrong_programs_are_listed():
    """docs/CLAIMS.md lists each must-fail edit with its sentence and its input, as tools/wrong prints them."""
    done = subprocess.run([ROOT / "tools" / "wrong", "--markdown"], cwd=ROOT, capture_output=True, text=True, check=True)
    assert f"<!-- wrong programs -->\n{done.stdout}\n<!-- wrong programs -->\n" in (ROOT / "docs" / "CLAIMS.md").read_text()


def test_package_has_the_page():
    """The page for an auditor shows docs/CLAIMS.md from a copy in the package's folder."""
    assert (ROOT / "python" / "cicelybeam" / "CLAIMS.md").read_text() == (ROOT / "docs" / "CLAIMS.md").read_text(), "cp docs/CLAIMS.md python/cicelybeam/"


@pytest.mark.parametrize("paper", PAPERS, ids=lambda path: str(path.relative_to(ROOT)))
def test_links_lead_to_files(paper):
    for link in re.findall(r"\]\(([^)#]+)(?:#[^)]*)?\)", paper.read_text()):
        assert "://" in link or (paper.parent / link).exists(), link
