"""An independent program with the command line of `nfot`: slow, readable, exact.

The package computes the definitions of docs/MODEL.md, docs/FORMATS.md and docs/LISTS.md, one by one, in plain Python 3
with integers of any size. Nothing in it is derived from the Rattle code. Who changes a format changes it here from
docs/FORMATS.md, not from the code. Then a difference between both programs shows a fault of one of them, or an unclear
sentence of those pages.

Each docstring gives the definition that its function computes. The definition's name in MODEL.md or LISTS.md stands in
backticks. "The list Slack" is the list of operations that LISTS.md calls Slack.

| subject | modules |
|---|---|
| numbers and lines | `exact`, `lines` |
| networks | `network`, `network_file`, `ladders` |
| curves, and the loading of a link | `curves`, `loading`, `loads_file` |
| thin flows | `patterns`, `equations`, `thin_flows`, `settling`, `flows_file` |
| runs | `phases`, `endless`, `resuming` |
| reports | `reports`, `report_file`, `checking` |
| quickest flows | `residual`, `quickest` |
| loading by route | `routes`, `routes_file` |
| the command line | `command_line`, `app`, `__main__` |
| checks by definition (`tests/direct.py`), which share no computation with the above | `direct`, `direct_flows`, `direct_growth`, `direct_violations` |
| random small networks for these checks | `small_cases` |
"""
