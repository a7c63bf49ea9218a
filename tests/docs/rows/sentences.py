"""sentences.py: sentences of the page that no row of a table has, each with its check. The page has to have them word for word."""
from call_rows import checked, numbered
from library import BASES, BLOCK, NAMES, SAMPLE, STATE, accepted, asks, byte, caller, log_add, log_power_up, read, reset, same, sample
from states import all_raised, a_state, an_image, coded, fresh, put, some

LOST = b"\x80" + bytes(SAMPLE - 1)  # status bit 7


def most():
    same(80, byte(read(all_raised(), 1, 0)[0], 1), "every flag is raised")


def any_bytes():
    """A reset of an unsound state."""
    same(0, reset(b"\xff" * STATE, an_image(500))[0], "it is accepted")


def across():
    state = a_state(510, (2, 0))
    same(state[118:119] + bytes(8) + b"\x02" + state[384:388], read(state, 1, 118, 14)[2], "a run over 127")


def rest_stays():
    answer, (_, out) = caller.make("read", a_state(511), 1, 0, 2, b"\xee" * 5)
    same((0, b"\xee" * 3), (byte(answer, 0), out[2:]), "what is behind the run")


def flat():
    """A flat module: Rx power 1 above its high alarm, with and without its mask in the record."""
    state = fresh(coded(put(put(an_image(512), 2, 4), 560, 0x10, 0, 0, 0, 0x20, 0, 0, 0)))
    values = put(bytes(SAMPLE), 7, 0x18, 0)
    masked = put(state, BASES[2] + NAMES["ZIKHRODAN_PAGE_03_MASKS_IN"], 0x80)
    counts = [byte(sample(one, values)[0], 2) for one in (state, masked)]
    same(1, counts[0] - counts[1], "a flag by a threshold, and its mask")


def garbage():
    same(17, asks("log_sample", some(513, 4 * BLOCK), 0, 0), "a log of any bytes, none used")


def over_empty():
    """Positions of a log with an empty block in it."""
    log = accepted(log_add(b"\xa5" * (3 * BLOCK), 0, bytes(SAMPLE)))
    log = accepted(log_add(accepted(log_power_up(accepted(log_power_up(log, 1)), 2)), 3, LOST))
    same([5, 2 * BLOCK + 5], [asks("log_sample", log, 3, position) >> 8 for position in (0, 1)], "where the samples start")


def old_block():
    """One without a summary: sound, read by the question, and sealed by an add."""
    old = checked(put(put(numbered(9), 4, 1), 5, *LOST))
    same((17, 1), (asks("log_sample", old, 1, 1), asks("log_first", old, 1, 7) >> 8), "it is sound, and read")
    same(b"\x80\0\0\1", accepted(log_add(old, 1, bytes(SAMPLE)))[501:505], "its summary")


def hidden():
    """A summary that lacks a sample's bit."""
    lying = checked(put(put(put(numbered(9), 4, 1), 5, *LOST), 504, 1))
    same((15, 0), (asks("log_sample", lying, 1, 0), asks("log_first", lying, 1, 7)), "it is unsound, and passed over")
    same(1, asks("log_first", put(lying, 504, 2), 1, 7) >> 8, "with 2 in byte 504 it is read")


SENTENCES = {
    "the number of raised flags let through, which is 80 at most": most,
    "whatever the 688 bytes were before, sound or not": any_bytes,
    "A run may go on from 127 to 128.": across,
    "go to the front of the output memory; the rest of that stays.": rest_stays,
    "Where page 03h cannot be selected, its thresholds and the ports' masks 242 to 247 still count.": flat,
    "With no block used any memory of whole blocks is a sound log.": garbage,
    "Blocks with no samples have no positions.": over_empty,
    "They are sound, and get one when a sample is added to them.": old_block,
    "It passes over a block with 1 in byte 504 whose summary has not the bit, and reads every other one.": hidden,
}
