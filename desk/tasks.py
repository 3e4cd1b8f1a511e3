"""The nine tasks: the command of each, what it takes and what its sheet is called."""

from dataclasses import dataclass
from typing import Dict


@dataclass(frozen=True)
class Task:
    number: int
    command: str
    title: str
    function: str  # the Rust's name
    about: str
    takes_temperature: bool = False
    takes_pressure: bool = False
    takes_k: bool = False
    takes_options: bool = False  # tolerances, threshold, bracket and both limits


T, P, K, OPTIONS = ({name: True} for name in ("takes_temperature", "takes_pressure", "takes_k", "takes_options"))

TASKS = (
    Task(1, "excess", "Excess", "excess_at", "activity coefficients and excess properties of a liquid", **T),
    Task(
        2,
        "bubble-pressure",
        "Bubble pressure",
        "activity_bubble_pressure",
        "pressure at which a liquid begins to boil",
        **T,
    ),
    Task(
        3,
        "dew-pressure",
        "Dew pressure",
        "activity_dew_pressure",
        "pressure at which a vapor begins to condense",
        **T,
        **OPTIONS,
    ),
    Task(
        4,
        "bubble-temperature",
        "Bubble temperature",
        "activity_bubble_temperature",
        "temperature at which a liquid begins to boil",
        **P,
        **OPTIONS,
    ),
    Task(
        5,
        "dew-temperature",
        "Dew temperature",
        "activity_dew_temperature",
        "temperature at which a vapor begins to condense",
        **P,
        **OPTIONS,
    ),
    Task(
        6,
        "stability",
        "Liquid stability",
        "liquid_stability",
        "tangent-plane trials: does the liquid split in two?",
        **T,
        **OPTIONS,
    ),
    Task(
        7,
        "flash",
        "Flash at T and p",
        "activity_tp_flash",
        "phases and their compositions at temperature and pressure",
        **T,
        **P,
        **OPTIONS,
    ),
    Task(8, "rachford-rice", "Rachford-Rice split", "rachford_rice", "vapor fraction for given K values", **K),
    Task(
        9,
        "rachford-rice-negative",
        "Negative flash",
        "rachford_rice_negative",
        "vapor fraction for given K values, below 0 and above 1 too",
        **K,
    ),
)

BY_COMMAND: Dict[str, Task] = {task.command: task for task in TASKS}

EXCESS, BUBBLE_PRESSURE, DEW_PRESSURE, BUBBLE_TEMPERATURE, DEW_TEMPERATURE, STABILITY, FLASH = TASKS[:7]
SPLIT, NEGATIVE_SPLIT = TASKS[7:]
