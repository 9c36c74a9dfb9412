"""What the tests of the screen share: the screen started as it is typed, on a free port, and asked by HTTP.

Each screen is ended by an interrupt behind its test, and must then end with status 0 and with nothing on standard error but what the
test has taken off it.
"""

from __future__ import annotations

import http.client
import json
import os
import shutil
import signal
import subprocess
import sys
from pathlib import Path

import pytest

ROOT = Path(__file__).resolve().parents[2]
sys.path[:0] = [str(ROOT / "python")]
SECONDS = 20  # that nothing here takes


class Started:
    """A screen that runs: its process, its address, and the file that it holds."""

    def __init__(self, path, *words):
        self.path = Path(path)
        typed = [sys.executable, "-m", "shahfureel", "screen", str(path), *map(str, words), "--port", "0"]
        environment = {**os.environ, "PYTHONPATH": str(ROOT / "python"), "PYTHONDONTWRITEBYTECODE": "1"}
        self.process = subprocess.Popen(typed, stdout=subprocess.PIPE, stderr=subprocess.PIPE, text=True, cwd=ROOT, env=environment)
        self.url = self.process.stdout.readline().strip()
        assert self.url.startswith("http://127.0.0.1:"), self.process.communicate(timeout=SECONDS)
        assert self.process.stdout.readline() == "Ctrl-C ends it\n"
        self.port = int(self.url.rsplit(":", 1)[1].rstrip("/"))

    def send(self, method, path, body=None, headers=None):
        """The status, headers and bytes of an answer; headers that are None are left out."""
        connection = http.client.HTTPConnection("127.0.0.1", self.port, timeout=SECONDS)
        try:
            connection.putrequest(method, path, skip_host=True, skip_accept_encoding=True)
            fields = {"Host": f"127.0.0.1:{self.port}"}
            if body is not None:
                fields |= {"Content-Type": "application/json", "Content-Length": str(len(body))}
            for name, value in {**fields, **(headers or {})}.items():
                if value is not None:
                    connection.putheader(name, value)
            connection.endheaders(body)
            answer = connection.getresponse()
            return answer.status, answer.headers, answer.read()
        finally:
            connection.close()

    def ask(self, name, **request):
        """The status and the object of a call."""
        status, _, data = self.send("POST", f"/api/{name}", json.dumps(request).encode())
        return status, json.loads(data)

    def end(self, number=signal.SIGINT):
        """Ends it, and returns its status and what it had on standard error."""
        self.process.send_signal(number)
        _, said = self.process.communicate(timeout=SECONDS)
        return self.process.returncode, said


@pytest.fixture(scope="module")
def harbour():
    """The harbour's screen, for all tests of a module that change nothing."""
    screen = Started("examples/harbour.csv", "23.5", "--day", "examples/harbour-day.csv")
    yield screen
    assert screen.end() == (0, "")


@pytest.fixture
def start(tmp_path):
    """start(FILE, WORD...): a screen of a copy of a file of examples/, or of a path."""
    screens = []

    def run(site="harbour.csv", *words):
        path = tmp_path / Path(site).name
        if not path.exists():
            shutil.copy(ROOT / "examples" / site, path)
        screens.append(Started(path, *words))
        return screens[-1]

    yield run
    for screen in screens:
        if screen.process.poll() is None:
            assert screen.end() == (0, "")
