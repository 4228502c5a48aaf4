"""A memory of 16 words of 8 bits: what is written at an address is read there, and all other words stay."""
import sys

from stework import ONE, Tasks, bits, check, decode, interleave


def memory(net: str) -> Tasks:
    i, k = bits("i", 4), bits("k", 4)          # the address that is written, and another
    v, u = bits("v", 8), bits("u", 8)          # the word that is written, and the word at k
    tasks = Tasks(net, order=[*interleave(i, k), *interleave(v, u)])

    # What is written at an address is read there.
    written = tasks.ste("written")
    written.ant("addr[3:0]", i, at=range(0, 2))
    written.ant("we", 1, at=0).ant("d[7:0]", v, at=0)
    written.con("q[7:0]", v, at=1)

    # A word at another address keeps its value, and so does each without `we`; `careless` has neither, and fails.
    for name, we, guard in ("kept", 1, i != k), ("disabled", 0, ONE), ("careless", 1, ONE):
        kept = tasks.ste(name)
        for word, here in enumerate(decode(k, 16)):
            kept.ant(f"mem[{word}][7:0]", u, at=0, when=here)
        kept.ant("addr[3:0]", i, at=0).ant("we", we, at=0)
        kept.ant("addr[3:0]", k, at=1)
        kept.con("q[7:0]", u, at=1, when=guard)
    return tasks


if __name__ == "__main__":
    net = sys.argv[1]
    results = check(net, memory(net))
    print(results.text, end="")
    print(results.assignment("careless"))
