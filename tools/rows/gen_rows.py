"""Streams that `gen` generates: how many packets they have, and how many bytes their modules.

The numbers are worked out here a second way, from docs/FORMATS.md, "Streams that are generated" and
"Streams that are written": the sizes of the modules are drawn, and the packets of all sections counted.
"""

from pathlib import Path

from tables import Run
from transport import TYPE_DESCRIPTOR, Module, ddb_section, descriptor, dii_section, packets_taken

EXAMPLES = Path(__file__).resolve().parents[2] / "examples"
MULTIPLIER, SEED_INCREMENT = 6364136223846793005, 11634580027462260723
BLOCK_SIZE, ROUNDS = 4000, 2
DRAWN = descriptor(TYPE_DESCRIPTOR, b"application/octet-stream")
# The page is that of an example but for the colour of the focus, in an entity of one part: so it has as many bytes.
HEADS = (
    b'Content-Type: multipart/mixed; boundary="b1"\r\n\r\n--b1\r\n'
    b'Content-Type: text/X-arib-bml; charset="euc-jp"\r\nContent-Location: startup.bml\r\n\r\n'
)
PAGE = (EXAMPLES / "menu-keys" / "startup.bml").read_bytes().removesuffix(b"\n")
ENTITY = HEADS + PAGE + b"\r\n--b1--\r\n"

# Seeds and counts, at the ends of their ranges too, and a seed and a count with as many digits as they may have.
GENERATED = [(1, 4), (7, 1), (0, 1), (4294967295, 2), (42, 100)]
LONG_WORDS = ["gen", "0000000001", "0000000004"]


def next_state(state, increment):
    return (state * MULTIPLIER + increment) % 2**64


def output(state):
    """Returns the word of a state: 32 of its bits, turned right by its top five."""
    word, turn = (state >> 18 ^ state) >> 27 & 0xFFFFFFFF, state >> 59
    return (word >> turn | word << (32 - turn)) & 0xFFFFFFFF


def words_of(seed):
    """Gives the words of a seed (PCG XSH RR 64/32), without end. The first state and the increment are drawn from the seed."""
    made, state = [], seed
    for _ in range(4):
        state = next_state(state, SEED_INCREMENT)
        made.append(output(state))
    increment = (made[2] | made[3] << 32) | 1
    state = next_state((made[0] | made[1] << 32) + increment, increment)
    while True:
        yield output(state)
        state = next_state(state, increment)


def sizes_of(seed, count):
    """Returns the sizes of the modules that are drawn."""
    words, sizes = words_of(seed), []
    for _ in range(count):
        sizes.append(1000 + next(words) % 64000)
        for _ in range(sizes[-1]):
            next(words)
    return sizes


def packet_count(sizes):
    """Returns how many packets the modules of these sizes are sent in."""
    infos = [b"", *(DRAWN for _ in sizes[1:])]
    modules = [Module(number, 1, size, info) for number, (size, info) in enumerate(zip(sizes, infos))]
    sections = [dii_section(1, 1, BLOCK_SIZE, modules)]
    for size in sizes:
        blocks = [min(BLOCK_SIZE, size - at) for at in range(0, size, BLOCK_SIZE)]
        sections += [ddb_section(1, 0, 1, 0, bytes(block)) for block in blocks]
    return ROUNDS * sum(map(packets_taken, sections))


def generated(seed, count, kept=None):
    """Returns the run of a seed and a count, beside what is kept."""
    sizes = [len(ENTITY), *sizes_of(seed, count)]
    lines = [f"gen {seed} {count}", f"packets {packet_count(sizes)}", f"bytes {sum(sizes)}", f"lines {count + 15}"]
    stdout = "".join(f"{line}\n" for line in lines).encode("ascii")
    return Run(f"{seed} {count}", ["gen", str(seed), str(count)], b"", b"", stdout, b"", 0, kept, kept)


def runs():
    """Returns the runs: each loads nothing and stores nothing, whatever is kept."""
    found = [generated(seed, count) for seed, count in GENERATED]
    found.append(generated(1, 4)._replace(name="zeros in front", arguments=LONG_WORDS))
    again = generated(1, 4, bytes(5))
    return [*found, again._replace(name="beside a bad area, and twice the same", again=again)]
