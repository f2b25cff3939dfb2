"""CAD in, DXF out, and part files of a few numbers: `brake import`, `folded`, `dxf` and `new`.

What comes in becomes a part file, which the program reads and judges as any other; what goes out is drawn from what
the program printed. Lengths are whole micrometres but where a CAD kernel works, which has millimetres.
"""
