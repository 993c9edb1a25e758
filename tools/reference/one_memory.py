"""The machine of one memory and one thread, which runs the tasks in turn by a list of grants."""

from .isa import decode
from .task import TaskState


def fault(number, tasks, holders, grant):
    """Why the next grant may not come in this phase, or, without a grant, why the list may not end."""
    waiting = {core: task.need()[1] for core, task in tasks.items() if task.end is None}
    if grant is None:
        return "unfinished %d %d" % next((core, lock) for core, lock in waiting.items() if lock not in holders)
    phase, core, lock = grant
    if not waiting:
        return "over"
    if phase != number:
        return "phase %d" % number
    if core not in tasks:
        return "no-task"
    if core not in waiting:
        return "ended"
    if waiting[core] != lock:
        return "waits %d" % waiting[core]
    return "held-by %d" % holders[lock]


def flat(program, fuel, grants=None, stops=None, why=None, acts=None, pick=None):
    """The run on one memory: by these grants, or by the least ones, or where `pick` chooses among the cores that can take the
    lock that they want. The ending, the loads and the grants; None for a list of
    grants that isn't a whole legal one, and then the list `stops`, if there is one, is told the first grant that may not come, and
    the list `why` the reason. The list `acts` is told each load and store, and None for each grant that is taken."""
    memory, decoded = list(program.memory), [decode(word) for word in program.code]
    holders, ends, loads, used, rest = {}, [], {}, [], list(grants or [])
    for number, phase in enumerate(program.phases):
        tasks = {core: TaskState(program, decoded, phase[core], fuel) for core in sorted(phase)}

        def go(task):
            seen = loads.setdefault((number, task.decl.core), [])

            def act(kind, word, value):
                if acts is not None:
                    acts.append((kind, number, task.decl.core, task.pc, sorted(task.held), len(seen), word, value))

            while task.end is None:
                need = task.need()
                if need[0] == "local":
                    task.local()
                elif need[0] == "end":
                    task.stop(need[1])
                elif need[0] == "load":
                    act("load", need[1], memory[need[1]])
                    seen.append((need[1], memory[need[1]]))
                    task.loaded(memory[need[1]])
                elif need[0] == "store":
                    value = task.merged(memory[need[1]])
                    act("store", need[1], value)
                    memory[need[1]] = value
                    task.retire()
                elif need[0] == "release":
                    task.held.discard(need[1])
                    del holders[need[1]]
                    task.retire()
                else:
                    return

        for task in tasks.values():
            go(task)
        while True:
            able = [core for core, task in tasks.items() if task.end is None and task.need()[1] not in holders]
            if not able:
                break
            if grants is None:
                core = able[0] if pick is None else pick(able)
            else:
                if not rest or rest[0][0] != number or rest[0][1] not in able or tasks[rest[0][1]].need()[1] != rest[0][2]:
                    if stops is not None:
                        stops.append(len(used))
                    if why is not None:
                        why.append(fault(number, tasks, holders, rest[0] if rest else None))
                    return None
                core = rest.pop(0)[1]
            task = tasks[core]
            lock = task.need()[1]
            holders[lock] = core
            task.held.add(lock)
            task.retire()
            used.append((number, core, lock))
            if acts is not None:
                acts.append(None)
            go(task)
        ends += [(number, core, "waits %d" % task.need()[1] if task.end is None else task.end, task.retired)
                 for core, task in tasks.items()]
        if any(task.end != "finished" for task in tasks.values()):
            break
    if rest:
        if stops is not None:
            stops.append(len(used))
        if why is not None:
            why.append(fault(number, tasks, holders, rest[0]) if program.phases else "over")
        return None
    return (ends, memory), loads, used
