"""A small, slow model of the program, written from docs/DEFINITIONS.md and docs/FORMATS.md alone.

It keeps lists of events and looks through whole tapes for every question: there is no queue, no
index, no stored colour, and no vector. `texts` has what is read and written, `histories` the
definitions, `machine` the steps, `scripts`, `claims` and `service` the commands `run`, `check` and
`serve`; `made_scripts`, `made_claims` and `made_texts` make random inputs.
"""
