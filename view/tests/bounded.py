"""What `caches` prints of some accesses, by the definition: each hart has of each set a list of lines, the one used last first."""


def caches_text(accesses, size, sets, ways):
    """`accesses` has of each the hart, the address and whether it writes."""
    lists, held, written, counts, evicted = {}, {}, set(), {}, {}
    for hart, addr, writes in accesses:
        line = addr // size
        if writes:
            others = [
                own
                for (other, at), own in lists.items()
                if other != hart and at == line % sets and line in own
            ]
            if line in written:
                bounded, unbounded = counts[line]
                counts[line] = bounded + bool(others), unbounded + bool(held[line] - {hart})
            else:
                written.add(line)
                counts[line] = 0, 0
            for own in others:
                own.remove(line)
        held[line] = {hart} if writes else held.get(line, set()) | {hart}
        own = lists.setdefault((hart, line % sets), [])
        if line in own:
            own.remove(line)
        own.insert(0, line)
        if len(own) > ways:
            last = own.pop()
            evicted[last] = evicted.get(last, 0) + 1
    taken = sorted(
        (-unbounded, line, bounded) for line, (bounded, unbounded) in counts.items() if unbounded
    )
    yield from (f"caches {size} {sets} {ways}", f"accesses {len(accesses)}", f"lines {len(taken)}")
    for unbounded, line, bounded in taken:
        yield f"line {line * size:#010x} bounded {bounded} unbounded {-unbounded} evicted {evicted.get(line, 0)}"
    sums = [sum(it) for it in zip(*counts.values())] or [0, 0]
    yield f"total bounded {sums[0]} unbounded {sums[1]} evicted {sum(evicted.values())}"
    yield "end"
