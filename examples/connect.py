import edgebpf

with edgebpf.connect(vertices=4, workers=2) as store:
    store.batch("A", inserts=([0, 0, 1], [1, 2, 2]))       # arrays of sources and targets
    version = store.pin()                                   # stays as it is
    store.batch("A", removes=([0], [1]))
    target = edgebpf.assemble("ldxw r0, [r1+4]\nexit")      # or edgebpf.compile_c("score.c", "score"), edgebpf.Program(code)
    result = version.run(target, "sum")
    assert result.values.tolist() == [3, 2, 0, 0] and result.total == 5
    assert version.neighbours(0).tolist() == [1, 2]         # a read-only view
    starts, targets = version.csr()                         # for scipy.sparse
    assert version.numbers(target).tolist() == targets.tolist()

try:
    edgebpf.assemble("ldxw r0, [r1+13]\nexit")
except edgebpf.Refused as refused:
    assert refused.cause == 11
    print(refused.explain())
