"""A queue of four words of two bits: the first word in stands at the exit, however long it waits there."""
from stework import Tasks, bits


def fifo(net: str) -> Tasks:
    p = bits("p", 2)                           # the word that is watched
    tasks = Tasks(net)

    # A vertex for each number of words in the queue: a push leads to the next, and a wait stays where it is.
    g = tasks.gste("first_in", start="start")
    g.edge("start", "none").ant("rst", 1)
    counts = ["none", "one", "two", "three", "four"]
    for old, new in zip(counts, counts[1:]):
        push = g.edge(old, new).ant("rst", 0).ant("push", 1).ant("pop", 0)
        if old == "none":
            push.ant("din[1:0]", p).con("empty", 1)
        else:
            push.con("dout[1:0]", p)
        wait = g.edge(new, new).ant("rst", 0).ant("pop", 0).con("dout[1:0]", p)
        if new == "four":
            wait.con("full", 1)                # nothing is said of `push`, for it does nothing
        else:
            wait.ant("push", 0).con("empty", 0)

    # A mistake: the queue is said not to be empty in the step of the push already.
    early = tasks.ste("early")
    early.ant("rst", 1, at=0)
    early.ant("rst", 0, at=1).ant("push", 1, at=1).ant("pop", 0, at=1).ant("din[1:0]", 2, at=1)
    early.con("empty", 0, at=range(1, 3))
    return tasks
