"""A model of docs/FORMATS.md and of the standards that it names, independent of the product.

It covers settings and why they are refused, the work and the cost of a hash, hashes, audits, and
lines with their answers. Hashes come from libxcrypt, or from hashlib if libxcrypt refuses.

All texts are bytes.
"""
