"""A hub: one program that takes the reports of all processes, and has them recover together.

    python3 -m recline_hub --listen unix:/run/job/hub --processes 4 --journal job.reports

Processes report by `recline_report.Reporter`. The hub appends what they report to its journal,
which is an input of `recline collect`, acknowledges it, and feeds the `recline collect`
that it runs. Killed at any time and started again, it goes on where it was, and so do the
reporters and the service: each note counts once.
"""
