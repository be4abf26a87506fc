"""Our module in engines of JavaScript, which measure how long their own hashes take.

So neither the start of an engine counts, nor the first hashes, during which it compiles the module.
"""
from __future__ import annotations

import contextlib
import json
import re
from collections.abc import Iterator
from dataclasses import dataclass
from pathlib import Path
from typing import Any

from support.browsers import Browser, chromium

from .failure import Stop
from .processes import output_of
from .programs import CLIENTS, MODULE
from .settings import Workload

NO_LIMIT = 1 << 42  # a budget that no hash here reaches
PAGE = """\
<!DOCTYPE html><meta charset="utf-8"><script type="module">{module}
globalThis.verify = new Policy({{ budget: {budget} }}).verify;
</script>
"""
SCRIPT = """\
const [password, stored, warmUps, count, runs] = {parameters};
function checkTimes(times) {{
    let allMatch = true;
    for (let number = 0; number < times; number++) allMatch = verify(password, stored) && allMatch;
    return allMatch;
}}
let allMatch = checkTimes(warmUps);
const times = [];
for (let run = 0; run < runs; run++) {{
    const begun = performance.now();
    allMatch = checkTimes(count) && allMatch;
    times.push(performance.now() - begun);
}}
return [allMatch, Math.min(...times)];
"""


@dataclass(frozen=True)
class ModuleInNode:
    """A process of node that checks the hashes of a workload."""

    workload: Workload

    def measure(self) -> float:
        """Starts node, and returns the processor time of the hashes in seconds."""
        workload = self.workload
        password, stored = workload.password.decode(), workload.hash.decode()
        counts = (str(workload.warm_up_hashes), str(workload.hashes))
        client = str(CLIENTS / "time_hashes.mjs")
        printed = output_of("node", client, str(MODULE), password, stored, *counts)
        all_match, microseconds = printed.split()
        if all_match != "true":
            raise Stop(f"node: {stored} doesn't match its password")
        return float(microseconds) / 1e6


@contextlib.contextmanager
def running_chromium(folder: Path) -> Iterator[Browser]:
    """Runs Chromium during the block."""
    profile = folder / "chromium"
    profile.mkdir()
    try:
        with chromium(profile) as browser:
            yield browser
    except AssertionError as error:  # which the tests' browsers raise if one doesn't start
        raise Stop(f"Chromium: {error}") from None


@dataclass(frozen=True)
class ModuleInChromium:
    """A page that checks the hashes of a workload."""

    browser: Browser
    folder: Path
    workload: Workload
    runs: int  # the fastest one counts

    def measure(self) -> float:
        """Opens the page, and returns the elapsed time of the hashes in seconds.

        A page can't measure processor time.
        """
        page = self.folder / "page.html"
        module = re.sub(r"^export ", "", MODULE.read_text(encoding="utf-8"), flags=re.MULTILINE)
        page.write_text(PAGE.format(module=module, budget=NO_LIMIT), encoding="utf-8")
        answer: Any = self.browser.evaluate(page.as_uri(), self.script())
        all_match, milliseconds = answer
        if not all_match:
            raise Stop(f"Chromium: {self.workload.hash.decode()} doesn't match its password")
        return float(milliseconds) / 1e3

    def script(self) -> str:
        """Returns the script that measures."""
        workload = self.workload
        parameters = [
            workload.password.decode(),
            workload.hash.decode(),
            workload.warm_up_hashes,
            workload.hashes,
            self.runs,
        ]
        return SCRIPT.format(parameters=json.dumps(parameters))
