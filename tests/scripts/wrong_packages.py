"""Packages and archives in which all is wrong, and pages of a release in which one thing is: what release.py must see of them."""
from __future__ import annotations

import gzip
import io
import os
import subprocess
import tarfile
from pathlib import Path

NAME = "l6_1.0_amd64.deb"
CONTROL = """Package: other
Version: 0.1
Architecture: all
Maintainer: nobody <nobody@example.org>
Pre-Depends: what-is-nowhere
Installed-Size: 99999
Description: another package
"""
ARCHIVE = "l6-1.0-x86_64.tar.gz"
PROGRAM = b"#!/bin/sh\necho wrong\n"
# Files of a release, what stands in them, what is put in its place, and the trial that must see it.
ALTERED = [
    ("README.md", "Version 1.", "Version 2.", "the version in README.md"),
    ("docs/l6.1", ".Os L6 ", ".Os L6 0", "the version in docs/l6.1"),
    ("dist/l6.html", "<p>L6 ", "<p>L6 0", "the version in dist/l6.html"),
    ("docs/command-line.md", "\nl6 1", "\nl6 2", "the version in docs/command-line.md"),
    ("CITATION.cff", 'version: "', 'version: "0', "the version in CITATION.cff"),
    ("CHANGELOG.md", "\n## [", "\n## [0", "the version in CHANGELOG.md"),
    ("crates/l6/src/arguments.rt", 'const VERSION: &str = "', 'const VERSION: &str = "0', "the version of the program"),
    ("CITATION.cff", "message: ", "massage: ", "the keys of the citation"),
    ("CITATION.cff", "message: ", "massage: ", "keys that the format does not know"),
    ("CITATION.cff", "cff-version: ", "cff-version: 0", "the format's version"),
    ("CITATION.cff", "name: The ", "name: ", "who is cited"),
    ("CITATION.cff", "  - MIT\n", "", "the licences of the citation"),
    ("CITATION.cff", "A Fast Storage", "A Storage", "the titles of the citation"),
    ("CITATION.cff", "message: ", "message ", "lines of the citation that are no YAML of this kind"),
    ("CITATION.cff", "date-released: 2", "date-released: 3", "the date of the changelog"),
    ("CHANGELOG.md", "\n### ", "\n### Not ", "the headings of the changelog"),
    ("LICENSE-MIT", "free of charge", "for money", "the text of LICENSE-MIT"),
    ("THIRD-PARTY.md", "]: licenses/itoa-MIT.txt", "]: licenses/none.txt", "texts that THIRD-PARTY.md names"),
    ("crates.txt", "l6_store_c staticlib:", "l6_other_c staticlib:", "archives that THIRD-PARTY.md does not name"),
    ("THIRD-PARTY.md", "| clap, ", "| clop, ", "crates that THIRD-PARTY.md does not name"),
    ("dist/l6.html", "free of charge", "for money", "licences in dist/l6.html"),
    ("dist/l6.mjs", "free of charge", "for money", "licences in dist/l6.mjs"),
    ("dist/l6db.mjs", "free of charge", "for money", "licences in dist/l6db.mjs"),
    ("dist/l6ed.mjs", "free of charge", "for money", "licences in dist/l6ed.mjs"),
    ("licenses/rust-MIT.txt", "free of charge", "for money", "the notices of l6"),
    ("licenses/rust-MIT.txt", "free of charge", "for money", "the notices of l6db"),
    ("licenses/zmij-MIT.txt", "free of charge", "for money", "the notices of l6ed"),
    ("README.md", "MIT OR Apache-2.0", "MIT", "the licences in README.md"),
    ("CONTRIBUTING.md", "docs/proof.md", "docs/prove.md", "links of CONTRIBUTING.md that lead nowhere, or elsewhere than they say"),
    ("dist/README.md", "`l6.mjs`", "`l7.mjs`", "files of dist/ in its page"),
]


def wrong_package(room: Path) -> Path:
    """Makes a package of Debian's kind in which all is wrong."""
    parts = room / "parts"
    for name, text in (("DEBIAN/control", CONTROL.encode()), ("DEBIAN/md5sums", b"%s  usr/other\n" % (b"0" * 32)), ("usr/other", b"other\n"),
                       ("usr/share/other.gz", gzip.compress(b"other\n"))):
        (parts / name).parent.mkdir(parents=True, exist_ok=True)
        (parts / name).write_bytes(text)
    if os.geteuid() == 0:  # (else it belongs to nobody else already)
        os.chown(parts / "usr/other", 1, 1)
    subprocess.run(["dpkg-deb", "-b", parts, room / NAME], check=True, capture_output=True)
    return room / NAME


def wrong_archive(room: Path) -> Path:
    """Makes an archive in which all is wrong; it has two programs, which print something else."""
    with tarfile.open(room / ARCHIVE, "w:gz") as archive:
        for name in ("one/bin/l6", "two/bin/l6"):
            member = tarfile.TarInfo(name)
            member.size, member.mode, member.uid, member.mtime = len(PROGRAM), 0o755, 1, 1
            archive.addfile(member, io.BytesIO(PROGRAM))
    return room / ARCHIVE
