"""Pictures and sentences of what a script does, from the script and the replies of `recline run`.

`texts` reads both, and `reports` reads what processes report, with the answers of `recline
collect`, as a script of the same events. `stories` tells what happened, `views` picks what is
shown, `diagrams` lays it out with `glyphs`, `arrows` and `labels`, and `svg` writes it. `sentences`
and `verdicts` say it in words. Nothing here plans anything: lines, certificates and replays are
read from the program.
"""
