"""A table of 64 MB, of which a hundred snapshots are taken while it is written: how long one takes beside a plain copy.
The shared object of the library is the first word of the command line."""
import sys
import time

from chorus import Machine

PAGE, PAGES, SNAPSHOTS, WRITES = 4096, 16384, 100, 200
TABLE, SNAPSHOT = 0x10000000, 0x80000000

with Machine(sys.argv[1], 40000, PAGE, 4096) as machine:
    actor = machine.actor()
    table = machine.temp(PAGES)
    machine.map(actor, table, 0, PAGES, TABLE, True)
    plain = list(range(PAGES))
    for page in range(PAGES):
        machine.store(actor, TABLE + PAGE * page, page.to_bytes(4, "little"))
    taken, drawn = 0.0, 1
    for n in range(SNAPSHOTS):
        begun = time.perf_counter()
        snapshot = machine.temp(PAGES)
        machine.copy(table, 0, snapshot, 0, PAGES)
        taken += time.perf_counter() - begun
        kept = list(plain)
        region = machine.map(actor, snapshot, 0, PAGES, SNAPSHOT, False)
        for i in range(WRITES):
            drawn = (drawn * 1664525 + 1013904223) % 2**32
            page = drawn >> 18
            plain[page] = PAGES + n * WRITES + i
            machine.store(actor, TABLE + PAGE * page, plain[page].to_bytes(4, "little"))
            if int.from_bytes(machine.load(actor, SNAPSHOT + PAGE * page, 4), "little") != kept[page]:
                sys.exit("the snapshot is wrong")
        machine.unmap(region)
        machine.destroy(snapshot)
    source = bytes(PAGE * PAGES)
    begun = time.perf_counter()
    copy = bytearray(source)
    copied = time.perf_counter() - begun
    print(f"{SNAPSHOTS} snapshots of {PAGES} pages, {WRITES} writes to the table after each: right")
    print(f"a snapshot takes {taken / SNAPSHOTS * 1e3:.3f} ms, a plain copy {copied * 1e3:.3f} ms (byte {copy[4096]})")
    print(f"pages copied: {machine.stat()['copies']}")
