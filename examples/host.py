import numpy as np
import edgebpf                                              # PYTHONPATH=bindings/python

with edgebpf.Store(vertices=4) as store:
    store.batch("A", inserts=(np.array([0, 0, 1]), np.array([1, 2, 2])))
    version = store.pin()
    store.batch("A", removes=([0], [1]))
    assert version.neighbours(0).tolist() == [1, 2]         # a read-only view that keeps its version
    target = edgebpf.assemble("ldxw r0, [r1+4]\nexit")
    assert version.run(target, "sum").total == 5
    assert version.numbers(target).tolist() == [1, 2, 2]    # one number for each edge, in the order of csr()
    run = version.begin(target)                             # of which nothing is done yet
    while not run.done:
        run.step(1_000_000)                                 # some milliseconds; a host that wants no more stops here
    assert (run.total, run.values.tolist()) == (5, [3, 2, 0, 0])
