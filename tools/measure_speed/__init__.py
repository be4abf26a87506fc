"""Measures how fast mkpasswd hashes, for docs/SPEED.md. The command is tools/bench.

Each part of the page has a module that measures it: `counts` (instructions), `ratios` (the time of
other programs and builds, divided by ours), `pwhash`, `logins`, `memory` and `seconds`. They yield
rows (`results`), which docs/speed.json keeps. `page` and `plots` show what that file has.
"""
