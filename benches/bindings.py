"""Times calls through the Python package, and prints them beside those of C and of Rust, which bindings/rust/examples/bench.rs
prints, as a table."""

import sys
import timeit

from duggfrask import Site


def tunnel(cells, slots, channels):
    room = slots * channels
    site = Site(cells, slots, channels)
    for cell in range(1, cells + 1):
        site = site.with_load(cell, room // 3 if cell % 2 else room - room // 3)
        if cell < cells:
            site = site.with_reach(cell, cell + 1)
    return site


def best(call, calls):
    return min(timeit.repeat(call, number=calls, repeat=15)) / calls * 1e9


python = {}
for name, site, calls in [("3 cells", tunnel(3, 3, 2), 5000), ("the largest site", tunnel(32, 128, 16), 100)]:
    table = bytearray(site.cells * site.positions)
    python["clash, " + name] = best(lambda: site.clash(1, 2), 5000)
    python["plan, " + name] = best(lambda: site.plan_into(table), calls)

print("\n## Through the bindings")
print()
print("The call as C makes it, through the crate for Rust, and through the package for Python; `over C` is what Python adds. The table of `plan` is lent, and never copied.")
print()
print("| Call | C | Rust | Rust / C | Python | over C |")
print("|---|---|---|---|---|---|")
for line in sys.stdin:
    name, c, rust = line.rstrip("\n").split("\t")
    c, rust = float(c), float(rust)
    print("| %s | %.0f | %.0f | %.2f | %.0f | %.0f |" % (name, c, rust, rust / c, python[name], python[name] - c))
print()
