"""Random plans for runs on threads that a caller makes."""
import random


def section(chance, resources):
    """Units of work, or a critical section on one of these resources."""
    units = f"op,run,{chance.randrange(1, 4)}"
    resource = chance.choice([None, *resources])
    return [units] if resource is None else [f"op,lock,{resource}", units, f"op,unlock,{resource}"]


def random_plan(seed):
    """A plan whose tasks share resources, mostly of as few cores as there are processors."""
    chance = random.Random(f"hosted {seed}")
    cores, ticks = chance.choice((1, 2, 2, 3, 3, 4, 4, 8)), chance.randrange(4, 61)
    resources = [f"g{at}" for at in range(chance.randrange(4))]
    records = ["msrp,1", f"cores,{cores}", f"ticks,{ticks}", *(f"resource,{name}" for name in resources)]
    for task in range(chance.randrange(1, 9)):
        period = chance.randrange(3, 25)
        records.append(f"task,t{task},{chance.randrange(cores)},{period},{chance.randrange(1, period + 1)},{chance.randrange(6)}")
        for _ in range(chance.randrange(1, 4)):
            records += section(chance, resources)
    return "".join(record + "\n" for record in records).encode()
