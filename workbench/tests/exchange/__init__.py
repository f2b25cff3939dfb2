"""Tests of `brake new`, `dxf`, `folded` and `import`."""
