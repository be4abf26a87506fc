"""pwhash hashes passwords, checks them, and audits stored hashes. Each hash is one proved call.

It is a command. Python programs call the package mkpasswd instead.
"""
