"""Lists what is in a release with its licences, as an SPDX document (version 2.3, tags and values), for tools/release."""
import hashlib
import re

OWN = "Apache-2.0 OR MIT"
COPYRIGHT = "Copyright 2026 the Vobrekan authors"
# What tells a licence, in the text of a licence file.
TELLING = {"Apache-2.0": "Apache License", "MIT": "Permission is hereby granted, free of charge", "BSL-1.0": "Boost Software License", "Unicode-3.0": "UNICODE LICENSE"}


def licence_of(files):
    """The licence of a library of the kit, by the licence files that lie beside it. Of a pair for Apache and MIT the user has the choice."""
    found = []
    for name, data in files.items():
        text = " ".join(data.decode(errors="replace").split())
        found.append(next((it for it, telling in TELLING.items() if telling in text), None))
    if not found or None in found:
        return "NOASSERTION"
    return (" OR " if {"LICENSE-APACHE", "LICENSE-MIT"} == set(files) else " AND ").join(sorted(set(found)))


def named(text):
    """A text as an identifier of the document."""
    return f"SPDXRef-{re.sub(r'[^A-Za-z0-9.-]', '-', text)}"


def head(name, commit, created):
    rows = ["SPDXVersion: SPDX-2.3", "DataLicense: CC0-1.0", "SPDXID: SPDXRef-DOCUMENT", f"DocumentName: {name}"]
    rows += [f"DocumentNamespace: https://spdx.org/spdxdocs/{name}-{commit.split(',')[0]}", "Creator: Tool: tools-release", f"Created: {created}"]
    return rows


def whole(version, sums):
    """The package of the release, with the sum of the sums of its files."""
    code = hashlib.sha1("".join(sorted(sums)).encode()).hexdigest()
    rows = ["", "PackageName: vobrekan", "SPDXID: SPDXRef-vobrekan", f"PackageVersion: {version}", "PackageDownloadLocation: NOASSERTION"]
    rows += ["FilesAnalyzed: true", f"PackageVerificationCode: {code} (excludes: ./share/doc/vobrekan/vobrekan.spdx)"]
    rows += ["PackageLicenseConcluded: NOASSERTION", "PackageLicenseInfoFromFiles: NOASSERTION", f"PackageLicenseDeclared: {OWN}"]
    return [*rows, f"PackageCopyrightText: {COPYRIGHT}", "Relationship: SPDXRef-DOCUMENT DESCRIBES SPDXRef-vobrekan"]


def library(name, kit, files):
    """A library of the kit that the programs have in them."""
    said = "" if files else "The kit has no licence file beside this library."
    rows = ["", f"PackageName: {name}", f"SPDXID: {named(f'kit-{name}')}", f"PackageVersion: {kit}", "PackageDownloadLocation: NOASSERTION", "FilesAnalyzed: false"]
    rows += ["PackageLicenseConcluded: NOASSERTION", f"PackageLicenseDeclared: {licence_of(files)}", "PackageCopyrightText: NOASSERTION"]
    rows += [f"PackageLicenseComments: <text>{said}</text>"] if said else []
    return [*rows, f"Relationship: SPDXRef-vobrekan STATIC_LINK {named(f'kit-{name}')}"]


def file(at, path, data):
    """A file of the release. One below licences/ is of its library, and what is compiled has libraries of the kit in it."""
    is_own = "/licences/" not in path and not path.startswith(("bin/", "lib/libvobrekan."))
    rows = ["", f"FileName: ./{path}", f"SPDXID: SPDXRef-file-{at}", f"FileChecksum: SHA1: {hashlib.sha1(data).hexdigest()}"]
    rows += [f"FileChecksum: SHA256: {hashlib.sha256(data).hexdigest()}", f"LicenseConcluded: {OWN if is_own else 'NOASSERTION'}"]
    return [*rows, "LicenseInfoInFile: NOASSERTION", f"FileCopyrightText: {COPYRIGHT if is_own else 'NOASSERTION'}"]


def document(name, version, commit, created, kit, libraries, entries):
    """The document: `libraries` has of each library of the kit its licence files, `entries` the bytes of each file of the release."""
    rows = [*head(name, commit, created), *whole(version, [hashlib.sha1(it).hexdigest() for it in entries.values()])]
    # The files of a package stand after it, before the next one.
    for at, (path, data) in enumerate(entries.items(), 1):
        rows += file(at, path, data)
    for it, files in libraries.items():
        rows += library(it, kit, files)
    return "\n".join(rows) + "\n"
