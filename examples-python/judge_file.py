"""Judges the station files named on the command line through the shared library, with nothing but Python's ctypes: prints the verdict with both
paths where no element is open, else the chosen setting; or the refusal in words. Without a name it prints the library's version.

    LD_LIBRARY_PATH=target/staticlib python3 examples-python/judge_file.py stations/K.txt

Where the library is installed it is found without LD_LIBRARY_PATH.
"""
import sys
from ctypes import CDLL, POINTER, Structure, c_char_p, c_size_t, c_uint8, c_uint16, c_uint32

MAX_SECTIONS, MAX_ELEMENTS = 512, 256
ELEMENT_OPEN = 10


class Refusal(Structure):
    _fields_ = [("number", c_uint16), ("line", c_uint16)]


class Verdict(Structure):
    _fields_ = [("refusal", Refusal), ("dangerous", c_uint16), ("first_train", c_uint16), ("second_train", c_uint16), ("meeting", c_uint16),
                ("entries", c_uint32), ("looks", c_uint32), ("first_length", c_size_t), ("second_length", c_size_t)]


class Settings(Structure):
    _fields_ = [("refusal", Refusal), ("safe", c_uint16), ("proceed", c_uint16)]


library = CDLL("libjudge.so.1")
# A file is passed as bytes and its length, so c_char_p stands for `const uint8_t *`.
for function, answer, arguments in [
    (library.judge_version, c_char_p, []),
    (library.judge_refusal_text, c_char_p, [c_uint16]),
    (library.judge_verdict, Verdict, [c_char_p, c_size_t, POINTER(c_uint16), c_size_t, POINTER(c_uint16), c_size_t]),
    (library.judge_settings, Settings, [c_char_p, c_size_t, POINTER(c_uint8), c_size_t]),
]:
    function.restype, function.argtypes = answer, arguments


def refused(refusal):
    return f"refusal {refusal.number}, line {refusal.line}: {library.judge_refusal_text(refusal.number).decode()}"


def judged(file):
    first, second = (c_uint16 * MAX_SECTIONS)(), (c_uint16 * MAX_SECTIONS)()
    verdict = library.judge_verdict(file, len(file), first, MAX_SECTIONS, second, MAX_SECTIONS)
    if verdict.refusal.number == ELEMENT_OPEN:
        return settled(file)
    if verdict.refusal.number != 0:
        return refused(verdict.refusal)
    if not verdict.dangerous:
        return f"safe, entries {verdict.entries}, looks {verdict.looks}"
    return (f"dangerous, entries {verdict.entries}, looks {verdict.looks}: train {verdict.first_train} by {first[:verdict.first_length]} "
            f"and train {verdict.second_train} by {second[:verdict.second_length]} to section {verdict.meeting}")


def settled(file):
    chosen = (c_uint8 * MAX_ELEMENTS)()
    settings = library.judge_settings(file, len(file), chosen, MAX_ELEMENTS)
    if settings.refusal.number != 0:
        return refused(settings.refusal)
    if settings.safe == 0:
        return "no safe setting"
    elements = int(file[11:16])
    return f"{settings.safe} safe settings, proceed count {settings.proceed}, chosen {chosen[:elements]}"


if len(sys.argv) == 1:
    print(library.judge_version().decode())
for name in sys.argv[1:]:
    with open(name, "rb") as station:
        print(f"{name}: {judged(station.read())}")
