"""`brake propose`: from the tool rack to a list of setups, which `brake setups` then proves.

Nothing here is believed: a poor list gives a dearer plan or none, never a wrong one.

- `words`: the command line; `command`: the course of a run; `folder`: many parts;
- `planner`: runs of the program, and what they answer; `job`: the strokes of a part; `rack`: the lengths that the
  stock makes; `stations`: kinds of station; `bed`: where they stand;
- `trials`: files of a run; `search`: which setups are tried, in which order; `blocks`: pairs of stations by sixes;
- `listing`: the setups file; `obstacles`: what stands in the way where there is no plan.

All lengths are whole micrometres, all costs whole tenths of a second.
"""
