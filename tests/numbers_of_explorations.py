"""How many states an exploration meets, and how many listings there are, by an independent search of the same systems.

Each row has an example or a worked run, words of the command line, states and listings. A state has the number of moves
that led to it.
"""

COUNTS = (
    ("send_hi", "--order total", 44, 2),
    ("send_hi", "--control first", 12, 1),
    ("second_send", "--order total", 120, 6),
    ("second_send", "--order process", 120, 6),
    ("second_send", "--control first", 16, 1),
    ("numbers", "--order total", 234, 5),
    ("numbers", "--after '0!'", 30, 1),
    ("exit_signal", "--order total", 42, 4),
    ("exit_signal", "--control first", 10, 1),
    ("spawn_inheritance", "--order total", 129, 7),
    ("spawn_inheritance", "--order total --control first", 32, 3),
    ("spawn_inheritance", "", 117, 4),
    ("spawn_inheritance", "--control first", 23, 1),
    ("worker_pool", "--order total", 275, 12),
    ("worker_pool", "--order total --control first", 69, 8),
    ("worker_pool", "", 250, 4),
    ("worker_pool", "--control first", 48, 1),
    ("race", "--order total", 125, 11),
    ("race", "--control first", 9, 1),
    ("pool", "--order total", 14_300, 1_854),
    ("pool", "--order total --control first", 1_980, 270),
    ("pool", "", 2_545, 39),
    ("pool", "--control first", 103, 1),
)
