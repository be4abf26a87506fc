"""Random lines for --batch, --check and --audit, in chunks.

The same seed, kind and number always give the same chunk.

- Hash lines go through --batch with a method and a given salt. Their passwords have 0 to 511 bytes,
  and a few are longer. The expected hashes then become lines of --check: with the right password,
  with a wrong one, or with one character of the hash changed. No option gives scrypt a cheap cost,
  so its hashes come from libxcrypt, and are only checked.
- Hostile lines are built from pieces of the grammar, are at a limit, or are good lines with some
  changes. They are for any mode, with any options and a budget; audits also run without a budget.
"""
