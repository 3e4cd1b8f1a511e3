"""A question for each task, about the stored book of ethanol and water, and books that are refused."""

from typing import Dict, Tuple

from support import STILL

from desk import BUBBLE_PRESSURE, BUBBLE_TEMPERATURE, DEW_PRESSURE, DEW_TEMPERATURE, EXCESS, FLASH
from desk import RACHFORD_RICE, RACHFORD_RICE_NEGATIVE, STABILITY, Question
from desk.blocks import sealed, split

SAMPLE_BOOK = (STILL / "data" / "book.bin").read_bytes()

FEED = (0.5, 0.5)
HEAT, PRESS = {"temperature": 351.44}, {"pressure": 90000.0}  # K, Pa
ASKED = (
    (EXCESS, HEAT),
    (BUBBLE_PRESSURE, HEAT),
    (DEW_PRESSURE, HEAT),
    (BUBBLE_TEMPERATURE, PRESS),
    (DEW_TEMPERATURE, PRESS),
    (STABILITY, HEAT),
    (FLASH, {**HEAT, **PRESS}),
    (RACHFORD_RICE, {"k_values": (2.0, 0.5)}),
    (RACHFORD_RICE_NEGATIVE, {"k_values": (1.2, 0.1)}),
)
NINE: Dict[int, Question] = {task.number: Question(task, FEED, **inputs) for task, inputs in ASKED}

HEAD, REST = split(SAMPLE_BOOK)[0], SAMPLE_BOOK[512:]
# with the number that each is refused with
WRONG_BOOKS: Tuple[Tuple[bytes, int], ...] = (
    (b"", 1),
    (SAMPLE_BOOK[:-1], 1),
    (SAMPLE_BOOK[:600] + b"\1" + SAMPLE_BOOK[601:], 2),
    (sealed([1, 4, *HEAD[2:63]]) + REST, 38),
    (sealed([1, 1, 9, *HEAD[3:63]]) + REST, 3),
    (sealed([1, 1, 2, 1, *HEAD[4:63]]) + REST, 37),
    (sealed([1, 2, *HEAD[2:63]]) + REST, 35),
)
