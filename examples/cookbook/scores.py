import edgebpf

# The record has the edge's 16 bytes, the least risk that counts, and then of each column the numbers of the source and of the target.
SCORE = """
    ldxdw r0, [r1+32]       ; the target's risk
    ldxdw r2, [r1+16]       ; the least that counts
    jge r0, r2, known
    mov r0, 0
known:
    ldxdw r2, [r1+40]       ; the source's land
    ldxdw r3, [r1+48]       ; the target's land
    jeq r2, r3, same
    lsh r0, 1               ; twice as much abroad
same:
    exit
"""


def scores(version, risk, land, least, users):
    score = edgebpf.assemble(SCORE, record=56)
    return version.run(score, "max", users, least.to_bytes(8, "little"), columns=[risk, land]).values
