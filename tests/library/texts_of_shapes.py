"""Pascal texts of a given length, each much of one thing: what a text can be long, wide or deep in.

SHAPES gives them by their names. bench/shapes measures what they cost, tests/shapes tries some of them, made small.
Names whose hashes are alike are not among them: the compiler's hashes begin with a number that is made of the whole
text, so that none can be chosen.
"""

from kinds_of_shapes import (
    declarations, expressions, refused, reported, routines, statements, watched, with_statements, with_types,
)
from kinds_of_shapes.form import ORDINARY, SHAPES, Shape

__all__ = ["ORDINARY", "SHAPES", "Shape", "PARTS"]

# the modules that put their shapes into SHAPES
PARTS = (declarations, routines, statements, with_statements, with_types, expressions, refused, reported, watched)
