#!/usr/bin/env python3
"""Other initiators against the front end: hosts.py [--program PATH] [--guest FOLDER] [--port N].

iscsi-test-cu of libiscsi, the tests that are no disk's. With --guest a Linux guest under QEMU, made in that folder with
Debian's kernel and packages: the kernel's initiator, st, mt, tar, mtx, sg and Bacula. Nothing but addresses of this
machine is used, but that the guest's packages come from Debian's archive."""
import argparse
import os
import shutil
import subprocess
import sys

import harness
from run import HERE, PROVED

TARGET = "iqn.2026-11.local.vtl:library"
PACKAGES = {"iscsi-test-cu": "libiscsi-bin", "cc": "gcc libc6-dev libiscsi-dev"}
GUEST_PACKAGES = {"qemu-system-x86_64": "qemu-system-x86", "mmdebstrap": "mmdebstrap", "mke2fs": "e2fsprogs"}
INSIDE = ("linux-image-amd64,open-iscsi,mt-st,mtx,sg3-utils,lsscsi,kmod,iproute2,tar,procps,udev,"
          "bacula-director,bacula-director-sqlite3,bacula-sd,bacula-fd,bacula-console,sqlite3")
# QEMU's own processor, since not every machine lends its own to a guest
ACCELERATION = ["-accel", "tcg", "-cpu", "max"]
DRIVE = ["SCSI.Inquiry", "SCSI.ModeSense6.AllPages", "SCSI.ModeSense6.Residuals", "SCSI.PrinReadKeys",
         "SCSI.ProutRegister", "SCSI.ProutReserve.Simple", *(f"SCSI.ProutReserve.Ownership{kind}" for kind in (
             "EA", "WE", "EARO", "WERO", "EAAR", "WEAR")), "SCSI.ProutClear", "SCSI.ProutPreempt",
         "SCSI.StartStopUnit.Simple", "SCSI.TestUnitReady", "SCSI.MultipathIO.Simple", "SCSI.MultipathIO.Reset",
         "iSCSI.iSCSIcmdsn"]
CHANGER = ["SCSI.Inquiry", "SCSI.ModeSense6.AllPages", "SCSI.ModeSense6.Residuals", "SCSI.TestUnitReady",
           "iSCSI.iSCSIcmdsn"]
# four short cartridges, so that a backup takes two, and one for tar
CONFIG = "".join(f'[[drive]]\nnumber = {at}\nreservations = "{at}.pr"\n' for at in (1, 2)) + "".join(
    f'[[cartridge]]\nbarcode = "VTL00{at}L6"\nfile = "{at}.tape"\nhome = {1000 + at}\n'
    f"capacities = [{20_000_000 if at < 5 else 268_435_456}]\n" for at in range(1, 9))


def missing(packages: dict[str, str]) -> list[str]:
    return [package for program, package in packages.items() if not shutil.which(program)]


def suites(bench: harness.Bench) -> int:
    """How many of iscsi-test-cu's tests fail."""
    shim, failed, passed = os.path.join(bench.folder, "readcapacity.so"), 0, 0
    subprocess.run(["cc", "-shared", "-fPIC", "-o", shim, os.path.join(HERE, "readcapacity.c"), "-ldl"], check=True)
    bench.ready().close()
    for unit, names in ((1, DRIVE), (0, CHANGER)):
        for name in names:
            where = f"iscsi://127.0.0.1:{bench.port}/{TARGET}/{unit}"
            done = subprocess.run(["iscsi-test-cu", "-d", "-t", name, where],
                                  env=os.environ | {"LD_PRELOAD": shim}, capture_output=True, text=True, check=False)
            counts = [line.split() for line in done.stdout.splitlines() if line.split()[:1] == ["tests"]]
            good = counts and counts[0][4] == "0" and counts[0][3] == counts[0][2]
            passed, failed = passed + (int(counts[0][3]) if good else 0), failed + (0 if good else 1)
            print(f"{'passed' if good else 'FAILED'} LUN {unit} {name}", flush=True)
    print(f"iscsi-test-cu: {passed} tests passed, {failed} names with failures")
    return failed


def made(folder: str) -> None:
    """The guest's disk, from Debian's packages and the files of guest/."""
    root, archive = os.path.join(folder, "root"), os.path.join(folder, "guest.tar")
    if not os.path.exists(archive):
        subprocess.run(["mmdebstrap", "--variant=minbase", f"--include={INSIDE}", "bookworm", archive], check=True)
    if not os.path.isdir(root):
        os.mkdir(root)
        subprocess.run(["tar", "-C", root, "-xf", archive], check=True)
    for name, place in (("init", "sbin/guest"), ("tapes", "root/tapes"), ("bacula", "root/bacula")):
        shutil.copy(os.path.join(HERE, "guest", name), os.path.join(root, place))
    os.chmod(os.path.join(root, "sbin/guest"), 0o755)
    image = os.path.join(folder, "guest.img")
    subprocess.run(["mke2fs", "-q", "-F", "-t", "ext4", "-d", root, image, "3G"], check=True)


def booted(folder: str, port: int, seconds: int) -> int:
    """How many steps fail in the guest; a step that it does not reach fails, too."""
    boot = os.path.join(folder, "root", "boot")
    kernel, disk = (next(os.path.join(boot, it) for it in sorted(os.listdir(boot)) if it.startswith(name))
                    for name in ("vmlinuz", "initrd"))
    words = f"root=/dev/vda rw console=ttyS0 quiet no_timer_check net.ifnames=0 init=/sbin/guest port={port}"
    with open(os.path.join(folder, "guest.log"), "w+", encoding="utf-8", errors="replace") as log:
        subprocess.run(["qemu-system-x86_64", *ACCELERATION, "-m", "1024", "-smp", "1", "-nographic", "-no-reboot",
                        "-kernel", kernel, "-initrd", disk, "-append", words, "-drive",
                        f"file={folder}/guest.img,if=virtio,format=raw", "-netdev", "user,id=net", "-device",
                        "virtio-net-pci,netdev=net"],
                       stdin=subprocess.DEVNULL, stdout=log, check=False, timeout=seconds)
        log.seek(0)
        lines = [line.strip() for line in log if line.startswith("== ")]
    print("\n".join(lines))
    return sum("FAILED" in line for line in lines) + (0 if "== end" in lines else 1)


def main() -> int:
    parser = argparse.ArgumentParser()
    parser.add_argument("--program", default=PROVED)
    parser.add_argument("--guest", metavar="FOLDER", help="also a Linux guest, which is made there")
    parser.add_argument("--only-guest", action="store_true", help="without iscsi-test-cu")
    parser.add_argument("--seconds", type=int, default=3_600, help="the longest that the guest may take")
    given = parser.parse_args()
    wanted = missing(PACKAGES | (GUEST_PACKAGES if given.guest else {}))
    if wanted:
        print(f"make hosts needs these Debian packages: {' '.join(wanted)}")
        return 1
    failed = 0
    if not given.only_guest:
        with harness.bench(given.program, None) as bench:
            failed = suites(bench)
    if given.guest:
        made(given.guest)
        with harness.bench(given.program, None, config=CONFIG) as bench:
            failed += booted(given.guest, bench.port, given.seconds)
    return 1 if failed else 0


if __name__ == "__main__":
    sys.exit(main())
