"""Writes the SPDX 2.3 document of an artifact as JSON.

It lists the files in the artifact, with their checksums, and the components that are linked into
them. The same artifact gives the same bytes: the only time is the release's, and the document's
name has the artifact's checksum. Of Debian 12's tools only `reuse` writes SPDX, and it lists a
project's sources by their licences, with the current time and a random name.
"""

from __future__ import annotations

import json
import re
from collections.abc import Iterator, Mapping, Sequence
from dataclasses import dataclass
from hashlib import sha1, sha256
from typing import Any

from sbom.components import Component
from sbom.contents import File

ARTIFACT = "SPDXRef-Artifact"
DOCUMENT = "SPDXRef-DOCUMENT"
NAMESPACE = "https://spdx.org/spdxdocs"

Element = dict[str, Any]  # an element of the document


@dataclass(frozen=True)
class Release:
    """The data that all artifacts of a release share."""

    version: str
    time: str  # as 2026-11-30T00:00:00Z
    supplier: str
    licence: str  # its SPDX name, or NONE if the owner grants none
    copyright: str


@dataclass(frozen=True)
class Artifact:
    """An artifact: its files, and the components in each of them, by the name of the file."""

    name: str
    sha256: str
    files: Sequence[File]
    components: Mapping[str, set[Component]]


def identifier(kind: str, name: str | int) -> str:
    """Returns an element's identifier, which may have letters, digits, dots and hyphens."""
    return f"SPDXRef-{kind}-{re.sub(r'[^A-Za-z0-9.]', '-', str(name))}"


def verification_code(files: Sequence[File]) -> str:
    """Returns a package's verification code (SPDX 2.3, 7.9): the SHA-1 of its files' SHA-1s."""
    sums = sorted(sha1(file.content).hexdigest() for file in files)
    return sha1("".join(sums).encode("ascii")).hexdigest()


def file_element(number: int, file: File) -> Element:
    """Returns the SPDX element for a file in the artifact."""
    return {
        "fileName": f"./{file.name}",
        "SPDXID": identifier("File", number),
        "checksums": [
            {"algorithm": "SHA1", "checksumValue": sha1(file.content).hexdigest()},
            {"algorithm": "SHA256", "checksumValue": sha256(file.content).hexdigest()},
        ],
    }


def artifact_element(artifact: Artifact, release: Release) -> Element:
    """Returns the artifact itself, as a package."""
    return {
        "name": artifact.name,
        "SPDXID": ARTIFACT,
        "versionInfo": release.version,
        "packageFileName": artifact.name,
        "supplier": release.supplier,
        "downloadLocation": "NOASSERTION",
        "filesAnalyzed": True,
        "packageVerificationCode": {
            "packageVerificationCodeValue": verification_code(artifact.files)
        },
        "checksums": [{"algorithm": "SHA256", "checksumValue": artifact.sha256}],
        "licenseConcluded": "NOASSERTION",
        "licenseDeclared": release.licence,
        "copyrightText": release.copyright,
    }


def component_element(component: Component) -> Element:
    """Returns a component, as a package whose files are not listed."""
    element = {
        "name": component.name,
        "SPDXID": identifier("Component", component.name),
        "supplier": component.supplier,
        "downloadLocation": "NOASSERTION",
        "filesAnalyzed": False,
    }
    if component.version:
        element["versionInfo"] = component.version
    return element


def relation(element: str, kind: str, related: str) -> Element:
    """Returns a relationship between two elements."""
    return {"spdxElementId": element, "relationshipType": kind, "relatedSpdxElement": related}


def relations(artifact: Artifact) -> Iterator[Element]:
    """Yields all relationships: what describes, contains and links what."""
    yield relation(DOCUMENT, "DESCRIBES", ARTIFACT)
    for number, file in enumerate(artifact.files, start=1):
        element = identifier("File", number)
        yield relation(ARTIFACT, "CONTAINS", element)
        for component in sorted(artifact.components[file.name]):
            yield relation(element, "STATIC_LINK", identifier("Component", component.name))


def document(artifact: Artifact, release: Release) -> str:
    """Returns the document of an artifact."""
    components = sorted(set().union(*artifact.components.values()))
    whole = {
        "spdxVersion": "SPDX-2.3",
        "dataLicense": "CC0-1.0",
        "SPDXID": DOCUMENT,
        "name": artifact.name,
        "documentNamespace": f"{NAMESPACE}/{artifact.name}-{artifact.sha256}",
        "creationInfo": {
            "created": release.time,
            "creators": [f"Tool: mkpasswd-sums-{release.version}"],
        },
        "packages": [
            artifact_element(artifact, release),
            *(component_element(component) for component in components),
        ],
        "files": [file_element(number, file) for number, file in enumerate(artifact.files, 1)],
        "relationships": list(relations(artifact)),
    }
    return json.dumps(whole, indent=1, ensure_ascii=False) + "\n"
