"""`brake desk`: a page in the browser, in which a planner works in millimetres.

Hands and eyes: each verdict and each printed number comes from the program. `folder` reads and writes the user's
files, `runs` starts children, `guard` says who may ask, and each `view_..` answers one view of the page in `static`.
"""
