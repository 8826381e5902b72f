"""A plain reading of docs/PROFILE.md and docs/FORMATS.md: what the program must answer.

By chapter of FORMATS.md: package_list (1), string_packages (2), framing, opcodes, operators, form_set, references, stores,
questions, defaults and expressions (3), stores (4), script (5), configuration (6), faults (7). By chapter of PROFILE.md:
policy, commands, configuration, pages, texts, run and program.
"""

from .run import Run, answer

__all__ = ["Run", "answer"]
