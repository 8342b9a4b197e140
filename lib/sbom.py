#!/usr/bin/env python3
"""Writes a bill of materials in SPDX 2.3 (JSON): what a package or a wheel has, and what it was built of.

usage: sbom.py PACKAGE VERSION FOLDER OUT [PROVED-CRATE..]

The files are those of FOLDER, with their sums. The proved crates are those that an archive or a program in it was
linked of; what is below them in crates.txt and in the kit is listed too. SNMPSEC_CRATES names crates.txt, and
SNMPSEC_KIT the kit, as `rt version` does. The time is SOURCE_DATE_EPOCH, so that the same files give the same bill. No
licence is named yet. Not proved."""
import datetime
import hashlib
import json
import os
import pathlib
import sys

NOTHING = "NOASSERTION"


def crates_below(names):
    """The crates of crates.txt that these are linked of, these too, and the crates of the kit below them."""
    below = {}
    for line in pathlib.Path(os.environ["SNMPSEC_CRATES"]).read_text().splitlines():
        name, _, deps = line.partition("#")[0].partition(":")
        if name.strip():
            below[name.split()[0]] = deps.split()
    found, left = set(), list(names)
    while left:
        name = left.pop()
        if name not in found:
            found.add(name)
            left += below.get(name, [])
    return sorted(found & set(below)), sorted(found - set(below) | {"std"} if names else [])


def part(name, version, purpose, comment):
    return {
        "SPDXID": f"SPDXRef-{name.replace('_', '-')}",
        "name": name,
        "versionInfo": version,
        "downloadLocation": NOTHING,
        "filesAnalyzed": False,
        "licenseConcluded": NOTHING,
        "licenseDeclared": NOTHING,
        "copyrightText": NOTHING,
        "primaryPackagePurpose": purpose,
        "comment": comment,
    }


def sums(path):
    octets = path.read_bytes()
    return hashlib.sha1(octets).hexdigest(), hashlib.sha256(octets).hexdigest()


def files_of(folder, out):
    for path in sorted(folder.rglob("*")):
        if path.is_file() and not path.is_symlink() and path != out and "DEBIAN" not in path.relative_to(folder).parts:
            sha1, sha256 = sums(path)
            checksums = [{"algorithm": "SHA1", "checksumValue": sha1}, {"algorithm": "SHA256", "checksumValue": sha256}]
            yield {
                "fileName": f"./{path.relative_to(folder)}",
                "licenseConcluded": NOTHING,
                "copyrightText": NOTHING,
                "checksums": checksums,
            }


def bill(package, version, folder, out, proved):
    files = list(files_of(folder, out))
    for number, file in enumerate(files):
        file["SPDXID"] = f"SPDXRef-File-{number + 1}"
    of_files = hashlib.sha1(
        "".join(sorted(file["checksums"][0]["checksumValue"] for file in files)).encode()
    ).hexdigest()
    whole = part(
        package, version, "INSTALL", "SNMPv3 user security and view access. The repository names no licence yet."
    )
    whole |= {"filesAnalyzed": True, "packageVerificationCode": {"packageVerificationCodeValue": of_files},
              "hasFiles": [file["SPDXID"] for file in files]}
    own, of_kit = crates_below(proved)
    kit = os.environ.get("SNMPSEC_KIT", NOTHING)
    parts = [
        part(f"crate-{name}", version, "SOURCE", "a crate of this repository, proved and linked statically")
        for name in own
    ]
    parts += [
        part(f"kit-crate-{name}", kit, "LIBRARY", "a crate of the Rattle kit, linked statically") for name in of_kit
    ]
    tool = [part("rattle-kit", kit, "APPLICATION", "the prover and the compiler")] if proved else []
    when = datetime.datetime.fromtimestamp(
        int(os.environ.get("SOURCE_DATE_EPOCH", "0")), datetime.timezone.utc
    ).strftime("%Y-%m-%dT%H:%M:%SZ")
    of = whole["SPDXID"]
    relations = [
        ("SPDXRef-DOCUMENT", "DESCRIBES", of),
        *((of, "CONTAINS", file["SPDXID"]) for file in files),
        *((of, "STATIC_LINK", it["SPDXID"]) for it in parts),
        *((it["SPDXID"], "BUILD_TOOL_OF", of) for it in tool),
    ]
    return {
        "spdxVersion": "SPDX-2.3",
        "dataLicense": "CC0-1.0",
        "SPDXID": "SPDXRef-DOCUMENT",
        "name": f"{package}-{version}",
        "documentNamespace": f"https://example.org/spdx/{package}-{version}-{of_files}",
        "creationInfo": {"created": when, "creators": ["Tool: snmpsec-sbom.py"]},
        "packages": [whole, *parts, *tool],
        "files": files,
        "relationships": [
            {"spdxElementId": one, "relationshipType": kind, "relatedSpdxElement": other}
            for one, kind, other in relations
        ],
    }


def main():
    package, version, folder, out, *proved = sys.argv[1:]
    out = pathlib.Path(out)
    told = bill(package, version, pathlib.Path(folder), out, proved)
    out.parent.mkdir(parents=True, exist_ok=True)
    out.write_text(json.dumps(told, indent=1, sort_keys=True) + "\n")


main()
