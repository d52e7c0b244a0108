#!/usr/bin/env python3
"""Looks at the page in headless Chromium, and keeps the picture, docs/vtl-iscsi.png: page.py [--program PATH]."""
import argparse
import os
import shutil
import socket
import subprocess
import sys

import harness
from harness import equal
from run import PROVED, TOP

PICTURE = os.path.join(TOP, "docs", "vtl-iscsi.png")


def free_port() -> int:
    with socket.create_server(("127.0.0.1", 0)) as sock:
        return int(sock.getsockname()[1])


def main() -> int:
    parser = argparse.ArgumentParser()
    parser.add_argument("--program", default=PROVED)
    given = parser.parse_args()
    browser = shutil.which("chromium")
    if not browser:
        print("make page needs the Debian package chromium")
        return 1
    port = free_port()
    with harness.bench(given.program, None, "--open", "--page", str(port)) as bench:
        host = bench.ready()
        for _ in range(3):
            equal(host.command(1, "0a0001000000", bytes(65_536)).status, 0)
        equal(host.command(1, harness.MARK).status, 0)
        equal(host.command(1, "0a0001000000", bytes(65_536)).status, 0)
        words = [browser, "--headless", "--no-sandbox", "--disable-gpu", "--window-size=1000,800"]
        subprocess.run([*words, f"--screenshot={PICTURE}", f"http://127.0.0.1:{port}/"], check=True,
                       stderr=subprocess.DEVNULL)
        shown = subprocess.run([*words, "--dump-dom", f"http://127.0.0.1:{port}/"], check=True, capture_output=True,
                               text=True).stdout
        for text in ("TAPE01L6", "196,608 bytes that a filemark made safe, 65,536 accepted behind it", "slot 1001",
                     "iqn.2000-01.example:one"):
            equal(text in shown, True, f"the page with {text!r}")
    print(f"page: {os.path.relpath(PICTURE)}")
    return 0


if __name__ == "__main__":
    sys.exit(main())
