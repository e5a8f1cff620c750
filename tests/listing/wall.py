"""A hall of walls of racks, request 07's example: refused with 13 at 4,210."""

from . import expressions
from .event_file import END, closed, leaves, opened
from .expressions import content
from .nil import either, nillable
from .schema_file import leaf

# The tags. A hall has walls, a wall has racks, a rack has hire boots, the sale mark and boots for
# sale. A wall may be nil, and so may a boot for sale.
HALL, WALL, RACK, BOOT, MARK = range(5)
SCHEMA = expressions.schema(5, (HALL, "1*"), nillable(content(WALL, "2 2*")), (RACK, "3* 4 5*"),
                            leaf(BOOT), leaf(MARK), either(BOOT))

BOOTS = 5
WHOLE_RACK = opened(RACK) + leaves(*[BOOT] * BOOTS, MARK, *[BOOT] * BOOTS) + closed(RACK)
WHOLE_WALL = opened(WALL) + WHOLE_RACK * 4 + closed(WALL)
# 21 whole walls; on the second rack of the next a second mark before the last boot.
BEFORE = (opened(HALL) + WHOLE_WALL * 21 + opened(WALL) + WHOLE_RACK
          + opened(RACK) + leaves(*[BOOT] * BOOTS, MARK, *[BOOT] * (BOOTS - 1)))
AFTER = leaves(BOOT) + closed(RACK) + WHOLE_RACK * 2 + closed(WALL, HALL) + END
EVENTS = BEFORE + leaves(MARK) + AFTER
VALID = BEFORE + AFTER
TEXT = "refused 13 at 4210\ninside 0 1 2\nopen 3\nopen nil 3\nclose\n"
