"""The question of portal.c, from Python: the boundary is plain, so the shared library and the header's layouts are all that it takes.

    LD_LIBRARY_PATH=$(pkg-config --variable=libdir luossavin) python3 portal.py SHELF JOB KEY IV

It ends as portal.c does. Python keeps copies of what it reads: of the key only the record is wiped here.
"""
import re
import sys
from ctypes import CDLL, Structure, byref, c_char_p, c_size_t, c_uint8, c_uint16, c_uint32, c_void_p, sizeof

DONE, TAG_SIZE, SHELF_HEAD = 0, 16, 12  # LUOSSAVIN_DONE and so on
WRONG_WORDS, NO_FILE = 64, 66


class Answer(Structure):
    _fields_ = [("number", c_uint32), ("missing", c_uint8), ("came_round", c_uint8), ("key", c_uint16), ("length", c_size_t)]


class Key(Structure):
    _fields_ = [("round_keys", c_uint32 * 32), ("answer", c_uint32), ("number", c_uint16), ("retired", c_uint8), ("engine", c_uint8)]


class Shelved(Structure):
    _fields_ = [("number", c_uint32), ("start", c_size_t), ("length", c_size_t)]


library = CDLL("libluossavin.so.1")
LENT = [c_char_p, c_size_t]  # a buffer and its length


def declare(name, result, *arguments):
    call = getattr(library, "luossavin_" + name)
    call.restype, call.argtypes = result, arguments
    return call


key_new = declare("key_new", Key, *LENT, c_uint32)
shelf_find = declare("shelf_find", Shelved, *LENT, c_size_t, c_uint32)
edition_opens = declare("edition_opens", Answer, Key, c_uint32, c_uint16, *LENT * 2)
refusal_name = declare("refusal_name", c_char_p, c_uint32)
wipe = declare("wipe", None, c_void_p, c_size_t)
wipe_stack = declare("wipe_stack", None)


def stop(status, what):
    print(f"portal.py: {what}", file=sys.stderr)
    sys.exit(status)


def read_file(name):
    try:
        with open(name, "rb") as file:
            return file.read()
    except OSError as error:
        stop(NO_FILE, error)


def read_job(word):
    """0 to 4294967295, in decimal digits and nothing else: ctypes would cut a larger number off without a word."""
    if not re.fullmatch("[0-9]{1,10}", word) or int(word) > 0xFFFFFFFF:
        stop(WRONG_WORDS, f"no job: {word}")
    return int(word)


def read_hex(what, digits):
    if not re.fullmatch("([0-9a-fA-F]{2}){0,32}", digits):
        stop(WRONG_WORDS, f"{what}: expected hex digits, two for each byte")
    return bytes.fromhex(digits)


def refuse(job, number):
    print(f"job {job}: nothing may be shown, refused with {number} {refusal_name(number).decode()}")
    return number


def main(shelf_name, job, key_name, iv):
    shelf, iv, number = read_file(shelf_name), read_hex("the IV", iv), read_job(job)
    found = shelf_find(shelf, len(shelf), len(shelf), number)
    if found.number != DONE:
        return refuse(job, found.number)
    record = shelf[found.start:found.start + found.length]
    key_bytes = read_hex(key_name, read_file(key_name).decode("latin-1").rstrip("\r\n"))
    key = key_new(key_bytes, len(key_bytes), 1)
    edition, sealed = int.from_bytes(record[6:8], "big"), record[SHELF_HEAD:]
    answer = edition_opens(key, number, edition, sealed, len(sealed), iv, len(iv))
    wipe(byref(key), sizeof(key))
    wipe_stack()
    if answer.number != DONE:
        return refuse(job, answer.number)
    print(f"job {job}: edition {edition} may be shown, {len(sealed) - TAG_SIZE} bytes")
    return 0


if __name__ == "__main__":
    if len(sys.argv) != 5:
        stop(WRONG_WORDS, "expected SHELF JOB KEY IV")
    sys.exit(main(*sys.argv[1:]))
