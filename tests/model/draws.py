"""The words that a request draws: numbers of 64 bits, fixed by its seed alone.

The generator is PCG XSL RR 128/64, known as `Lcg128Xsl64` in the Rust crate rand_pcg. Its
starting bytes come from PCG XSH RR 64/32, as by that family's `seed_from_u64`.
"""

MULTIPLIER_128 = 0x2360ED051FC65DA44385DF649FCCF645
SEED_MULTIPLIER = 0x5851F42D4C957F2D
SEED_INCREMENT = 0xA17654E46FBE17F3


def rotate_right(number, by, bits):
    by %= bits
    return (number >> by | number << (bits - by)) % 2**bits


def start_bytes(seed):
    """32 bytes from a seed of 64 bits: eight words of 32 bits, the low byte of each first."""
    state, found = seed, b""
    for _ in range(8):
        state = (state * SEED_MULTIPLIER + SEED_INCREMENT) % 2**64
        mixed = (state >> 18 ^ state) >> 27
        found += rotate_right(mixed % 2**32, state >> 59, 32).to_bytes(4, "little")
    return found


def words(seed):
    """All words of the seed, the first one first."""
    found = start_bytes(seed)
    increment = int.from_bytes(found[16:], "little") | 1
    state = (int.from_bytes(found[:16], "little") + increment) % 2**128
    state = (state * MULTIPLIER_128 + increment) % 2**128
    while True:
        state = (state * MULTIPLIER_128 + increment) % 2**128
        halves = state >> 64 ^ state % 2**64
        yield rotate_right(halves, state >> 122, 64)


def pick(word, degree):
    """The index below `degree` that the word chooses, by its high half."""
    return (word >> 32) * degree >> 32


def resets(word, reset):
    """Whether the word sends a walk back to a seed user (`reset` in 10000), by its low half."""
    return (word % 2**32) * 10000 >> 32 < reset
