"""The wheel: installed in a fresh virtual environment, it runs without Rattle."""
import os
import subprocess
import sys
from pathlib import Path

import pytest
from conftest import box

ROOT = Path(__file__).resolve().parents[2]
SYSTEM = "/usr/bin/python3"

PROGRAM = """
import pathlib, shutil, sys
import cicelybeam, cicelybeam.library
here = pathlib.Path(sys.prefix)
assert shutil.which("rt") is None
assert here in pathlib.Path(cicelybeam.__file__).parents, cicelybeam.__file__
assert here in pathlib.Path(cicelybeam.library.library()._name).parents
assert (pathlib.Path(cicelybeam.__file__).parent / "py.typed").exists()
cut = cicelybeam.cut_plane(cicelybeam.read("box.vtu"), (0, 0, 0.3), (0, 0, 1))
cut.write("b.html")
print(cut.record.area)
"""


def run(*command, **more) -> subprocess.CompletedProcess:
    done = subprocess.run([str(part) for part in command], capture_output=True, text=True, **more)
    assert done.returncode == 0, done.stdout + done.stderr
    return done


@pytest.fixture(scope="module")
def wheel() -> Path:
    if not (ROOT / "target" / "staticlib" / "libcicelybeam.a").exists():
        pytest.skip("the library is not built")
    run(ROOT / "python" / "build", "--wheel")
    found = list((ROOT / "dist").glob("*.whl"))
    assert len(found) == 1
    return found[0]


def test_wheel(wheel, tmp_path):
    """Without python/, without rt in PATH and with nothing but Debian's packages; then `pip install .`, which needs rt."""
    assert wheel.name.endswith("-py3-none-linux_x86_64.whl") or sys.platform != "linux" or os.uname().machine != "x86_64"
    run(SYSTEM, "-m", "venv", "--system-site-packages", tmp_path / "venv")
    command = tmp_path / "venv" / "bin"
    clean = {"PATH": f"{command}:/usr/bin:/bin", "HOME": str(tmp_path)}
    run(command / "pip", "install", "--quiet", "--no-index", "--disable-pip-version-check", wheel, env=clean, cwd=tmp_path)
    box(2).write(tmp_path / "box.vtu")
    assert run("cicelybeam", "--version", env=clean, cwd=tmp_path).stdout.startswith("cicelybeam 0.")
    done = run("cicelybeam", "plane", "box.vtu", "--origin", "0,0,0.3", "--normal", "z", "--report", "a.html", "--picture", "a.svg",
               "--vtk", "a.vtp", env=clean, cwd=tmp_path)
    assert "with a total area of 1" in done.stdout and "<svg" in (tmp_path / "a.html").read_text()
    assert float(run(command / "python", "-c", PROGRAM, env=clean, cwd=tmp_path).stdout) == pytest.approx(1)
    source = {**clean, "PATH": os.environ["PATH"]}
    run(command / "pip", "install", "--quiet", "--no-index", "--no-build-isolation", "--no-deps", "--force-reinstall", ROOT, env=source, cwd=tmp_path)
    assert float(run(command / "python", "-c", PROGRAM, env=clean, cwd=tmp_path).stdout) == pytest.approx(1)
