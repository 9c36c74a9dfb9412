"""The package in a clean virtual environment, by pip and without network."""

from __future__ import annotations

import os
import subprocess
import sys

from conftest import ROOT


def test_pip_install_without_network(tmp_path):
    environment = {name: value for name, value in os.environ.items() if not name.startswith(("PYTHON", "PIP", "SHAHFUREEL"))}
    environment |= {"PIP_NO_INDEX": "1", "PIP_DISABLE_PIP_VERSION_CHECK": "1", "HOME": str(tmp_path), "PYTHONDONTWRITEBYTECODE": "1"}
    subprocess.run([sys.executable, "-m", "venv", tmp_path / "venv"], check=True, env=environment)
    pip = [tmp_path / "venv/bin/python", "-m", "pip", "install", "--no-compile", "-q", ROOT / "python"]
    subprocess.run(pip, check=True, env=environment, cwd=tmp_path)
    typed = [tmp_path / "venv/bin/shahfureel", "dispatch", ROOT / "examples/island.csv", "15"]
    done = subprocess.run(typed, capture_output=True, text=True, check=False, env=environment, cwd=tmp_path)
    assert (done.returncode, done.stderr, done.stdout) == (0, "", (ROOT / "examples/island-15.txt").read_text())
    # the screen's page is there too
    made = "from shahfureel import screen; screen.server.Server(screen.Screen(screen.Held('site.csv')), 0).server_close()"
    (tmp_path / "site.csv").write_bytes((ROOT / "examples/island.csv").read_bytes())
    subprocess.run([tmp_path / "venv/bin/python", "-c", made], check=True, env=environment, cwd=tmp_path)
    told = subprocess.run([*typed[:1], "--help"], capture_output=True, text=True, check=True, env=environment, cwd=tmp_path)
    assert told.stdout.startswith("usage: shahfureel ")


def test_beside_an_installed_package(tmp_path):
    """As tools/install has it: the package in PREFIX/lib/python3/dist-packages, the library in PREFIX/lib."""
    packages = tmp_path / "lib/python3/dist-packages"
    packages.mkdir(parents=True)
    (packages / "shahfureel/screen").mkdir(parents=True)
    for path in (ROOT / "python").glob("shahfureel/**/*.py"):
        (packages / path.relative_to(ROOT / "python")).write_bytes(path.read_bytes())
    environment = {"PATH": os.environ["PATH"], "PYTHONPATH": str(packages), "PYTHONDONTWRITEBYTECODE": "1"}
    typed = [sys.executable, "-m", "shahfureel", "dispatch", ROOT / "examples/island.csv", "15"]
    missing = subprocess.run(typed, capture_output=True, text=True, check=False, env=environment, cwd=tmp_path)
    assert missing.returncode == 2 and f"{tmp_path}/lib/libshahfureel.so" in missing.stderr
    (tmp_path / "lib/libshahfureel.so").write_bytes((ROOT / "target/lib/libshahfureel.so").read_bytes())
    done = subprocess.run(typed, capture_output=True, text=True, check=False, env=environment, cwd=tmp_path)
    assert (done.returncode, done.stdout) == (0, (ROOT / "examples/island-15.txt").read_text())
