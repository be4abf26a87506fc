"""The parts of tools/specification, which makes a page from the sources.

sources    files of the crates, and places in them
imports    what a file imports
antt       the definitions of a file of specs/
rattle     the types, constants and public calls of the code
meanings   what the names in a definition, a type or a call mean
markdown   how an entry of the page looks, and where links to it lead
frame      tools/specification.md, with its placeholders filled

Patterns read the sources. Each line of a file of specs/ must have a known form, and so must the
parts of the code for the page: imports for clauses, types, views and calls. Any other form is an
error, since otherwise nobody would notice what the page lacks. rt itself shows single definitions
(rt lemma), but not a call with everything that its clauses depend on.
"""
