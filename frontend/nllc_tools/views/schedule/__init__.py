"""The page of a schedule: owners side by side, boxes between them, event by event.

The states are those that `world_program` prints (frontend/world_program.rattle), which takes a world of `nll_model`
through the schedule. What a page says beyond them, why a region got an element and what counts in the balance, is
worked out here from the problem.
"""
