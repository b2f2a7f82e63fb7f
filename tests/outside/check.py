#!/usr/bin/env python3
"""The sending program, and the receiving one, against an outside decoder, Debian's multimon-ng.

    python3 tests/outside/check.py                                  page_send and page_receive of target/bin, seed 1, 60 drawn jobs
    python3 tests/outside/check.py SENDING SEED DRAWN RECEIVING     other programs, seed and number of drawn jobs; fewer will do

multimon-ng comes with `apt-get install multimon-ng`. Where it is missing the check says so and ends well.

Each job is sent, its listing is made into sound, and multimon-ng, which knows nothing of this library, says what it hears. Its
lines must be the job's pages, each with address, function and text, in the order in which their addresses go out. That order
is worked out here, from the rule for the slots alone. The fixed jobs have every function in every frame, every bit of an
address, the neighbours of the reserved addresses, every length of each kind of text, every character, every bit of a data page's
group, every phrase of a book of 100 (R-6), messages that end just before, on and after the end of a batch, and pauses after a
message in which messages and tones wait. The drawn jobs mix all of these. A job with phrases is sent with the book's file as the
program's argument, any other without. The first difference is printed with its job, and the exit status is then 1.

The bits of the sound are also what the receiving program gets (R-10), eight to a byte: its lines must be the pages that multimon-ng hears,
in the same order, phrases as alphanumeric pages.

The sound: 22050 samples a second, 16 bits each with sign, low byte first. A one is a low level and a zero a high one (the
other way round multimon-ng hears nothing). Every job is heard at 512 and at 1200 bits a second. After the listing come 96 bits
1010..., as if another transmission began.

Options and conventions of multimon-ng 1.2.0:

- `-b 0` turns its repair of bits off. One wrong bit in an address or message word is then a difference. To show this, the
  check ends by spoiling listings on purpose, a bit at a time and once by exchanging two frames; each must be found. The receiving
  program mends such a bit, and its lines must stay as they are.
- `-p` shows a page that loses the signal. A page is printed only when something follows it; one whose address is the last
  word of all needs both `-p` and the bits behind the listing. Plain silence won't do: a steady high level is heard as
  addresses 0 to 7, a steady low one as more of the message.
- No `-f`: function 0 is then printed as `Numeric`, any other function with a message as `Alpha`. With `-f auto` it prints several
  guesses for a page.
- It knows no data pages (R-11), which have function 1 or 2 and a message. As `Alpha`, like any text, they are compared as printed,
  which doesn't settle all their bits. So a job with data pages is heard once more with `-f numeric`. Every message is then
  `Numeric`, a sign for each four bits, the spare as `.`; for a data page that is a sign for each digit, and every bit is compared.
- No `-e`: that would hide the tones. They have neither `Numeric` nor `Alpha` behind them, whatever their function.
- Addresses are decimal, all 21 bits, the low three taken from the place in the batch.
- Numeric texts show brackets, U, hyphen and space as themselves. The spaces that fill the last word are printed and compared.
- Alphanumeric texts aren't ended by a zero: each whole character of zero bits in the last word's fill is printed as `<NUL>`
  (none, one or two), and these are compared too. The standard set of signs (`-C US`) is plain ASCII.
- Control characters are printed by name, such as `<LF>` or `<DEL>`, so `<LF>` may be one character or four. Texts with a
  control character or with such a name spelt out are compared as they are printed, and counted apart, for there the
  printed form doesn't settle the bytes.
- A printed text ends at 1023 characters at the latest, with no part of a name. Only long texts of control characters come
  so far; of these the first 1019 printed characters are compared, and they are counted too.

- Its clock follows the changes of level. More than 120 DEL in a row are words of ones alone, hundreds of bits without a
  change; at 512 bits a second it then slips a bit (at 1200, or with the sound stretched by one part in ten thousand, it
  hears all 240). So DEL is repeated 100 times at most here, and the group FFFFF, also a word of ones alone, 30 times.

What this can't see: the length of the preamble, single wrong bits in idle words, the number of batches behind the last page.
"""

import os
import random
import re
import shutil
import subprocess
import sys
import tempfile

DECODER = "multimon-ng"
SAMPLES = 22050
RATES = (512, 1200)
TAIL = "10" * 48
CUT = 1019
LOW = (-16000).to_bytes(2, "little", signed=True)
HIGH = (16000).to_bytes(2, "little", signed=True)
SYNC, IDLE = 0x7CD215D8, 0x7A89C197
PREAMBLE_WORDS = 18
TONES, NUMERIC, ALPHA, DATA, PHRASE = range(4), 4, 5, (6, 7), 9
FUNCTIONS = {NUMERIC: 0, ALPHA: 3, 6: 1, 7: 2, PHRASE: 3}
SORTS = {NUMERIC: "numeric", ALPHA: "alphanumeric", 6: "data", 7: "data", PHRASE: "phrase"}
SIGNS = b"0123456789.U -]["  # by their four bits, low bit first; the spare can't be sent
DIGITS = SIGNS.replace(b".", b"")
HEX = b"0123456789ABCDEF"
PRINTABLE = bytes(range(32, 127))
ALL_BYTES = bytes(c for c in range(1, 128) if c not in (3, 4))
BOOK = [(b"%02d " % n + PRINTABLE * 3)[:1 + 239 * n // 99] for n in range(100)]  # 1 to 240 characters, no two phrases alike
NAMES = dict(enumerate(
    "NUL SOH STX ETX EOT ENQ ACK BEL BS HT LF VT FF CR SO SI DLE DC1 DC2 DC3 DC4 NAK SYN ETB CAN EM SUB ESC FS GS RS US".split()))
NAMES[127] = "DEL"
SPELT = re.compile("<(" + "|".join(NAMES.values()) + ")>")
HEARD = re.compile(r"POCSAG\d+: Address: +(\d+)  Function: ([0-3]) (?: (Numeric|Alpha): {1,3}?(.*))?")
LINE = re.compile("[0-9A-F]{8}( [0-9A-F]{8})?")


class Difference(Exception):
    pass


# A page is (identity, kind, text), where a data page's text is its digits and a phrase one of BOOK; a job is a list of pages.

def digits(kind, text):
    """A text as it is written in a page line."""
    return text.decode() if kind in DATA else "%02d" % BOOK.index(text) if kind == PHRASE else text.hex().upper()


def job_lines(job):
    return "".join("%06X %X%s\n" % (i, k, " " + digits(k, t) if t else "") for i, k, t in job)


def message_words(page):
    _, kind, text = page
    if kind == NUMERIC:
        return -(-len(text) // 5)
    if kind in (ALPHA, PHRASE):
        return -(-7 * len(text) // 20)
    return len(text) // 5


def sending_order(job):
    """The pages by the slots of their addresses: a slot that no message needs takes the first waiting page of its frame, and the
    slot directly after a message, its pause, the first waiting tone of its frame."""
    waiting, order, slot, pause = list(job), [], 0, False
    while waiting:
        page = next((p for p in waiting if p[0] % 8 == slot % 16 // 2 and not (pause and message_words(p))), None)
        slot, pause = slot + 1, False
        if page is not None:
            waiting.remove(page)
            order.append(page)
            slot, pause = slot + message_words(page), message_words(page) > 0
    return order


def message_bits(page):
    """The bits of the message codewords, in the order in which they are sent."""
    _, kind, text = page
    if kind == NUMERIC:
        return "".join(format(SIGNS.index(c), "04b")[::-1] for c in text.ljust(5 * message_words(page)))
    if kind in (ALPHA, PHRASE):
        return "".join(format(c, "07b")[::-1] for c in text).ljust(20 * message_words(page), "0")
    return "".join(format(HEX.index(c), "04b") for c in text)


def as_printed(page, all_numeric):
    """Address, function, label and text as multimon-ng prints them, the text without its limit and perhaps always as numeric."""
    identity, kind, _ = page
    if kind in TONES:
        return identity, kind, None, None
    function, bits = FUNCTIONS[kind], message_bits(page)
    size = 4 if all_numeric or function == 0 else 7
    signs = [int(bits[n:n + size][::-1], 2) for n in range(0, len(bits) - size + 1, size)]
    if size == 4:
        return identity, function, "Numeric", "".join(chr(SIGNS[c]) for c in signs)
    return identity, function, "Alpha", "".join("<%s>" % NAMES[c] if c in NAMES else chr(c) for c in signs)


def is_ambiguous(page):
    text = page[2]
    return page[1] == ALPHA and (any(c in NAMES for c in text) or SPELT.search(text.decode()) is not None)


def send(program, job):
    with tempfile.NamedTemporaryFile() as book:
        book.write(b"".join(phrase.hex().upper().encode() + b"\n" for phrase in BOOK))
        book.flush()
        command = [program, book.name] if any(kind == PHRASE for _, kind, _ in job) else [program]
        done = subprocess.run(command, input=job_lines(job).encode(), stdout=subprocess.PIPE, stderr=subprocess.PIPE)
    lines = done.stdout.decode("latin-1").split("\n")
    if lines.pop() != "" or not lines or not all(LINE.fullmatch(line) for line in lines):
        raise Difference("the sending program gave no listing: %r" % done.stdout[:200])
    return [int(word, 16) for line in lines for word in line.split(" ")]


def on_air(words):
    """The bits of a transmission, and those behind it."""
    return "".join(format(word, "032b") for word in words) + TAIL


def sound(words, rate):
    return b"".join((LOW if bit == "1" else HIGH) * ((n + 1) * SAMPLES // rate - n * SAMPLES // rate)
                    for n, bit in enumerate(on_air(words)))


def receive(program, words, job):
    """The receiving program prints the job's pages in the order in which their addresses go out."""
    bits = on_air(words)
    recording = int(bits, 2).to_bytes(len(bits) // 8, "big")
    done = subprocess.run([program], input=recording, stdout=subprocess.PIPE, stderr=subprocess.PIPE)
    lines = job_lines([(identity, ALPHA if kind == PHRASE else kind, text) for identity, kind, text in sending_order(job)])
    if done.stdout != lines.encode():
        raise Difference("the receiving program prints %r\n  expected %r" % (done.stdout[:2000], lines[:2000]))


def hear(words, rate, all_numeric):
    """The pages that multimon-ng prints, in its order; a line of another form is kept as it is."""
    mode = ["-f", "numeric"] if all_numeric else []
    command = [DECODER, "-q", "-c", "-a", "POCSAG%d" % rate, "-p", "-b", "0", *mode, "-t", "raw", "-"]
    with tempfile.TemporaryFile() as samples:  # a file, since what it hears of a pipe depends on how the reads fall
        samples.write(sound(words, rate))
        samples.seek(0)
        done = subprocess.run(command, stdin=samples, stdout=subprocess.PIPE, stderr=subprocess.PIPE)
    if done.returncode != 0:
        raise Difference("%s ended with %d: %r" % (DECODER, done.returncode, done.stderr[:200]))
    heard = []
    for line in done.stdout.decode("latin-1").split("\n")[:-1]:
        m = HEARD.fullmatch(line)
        if m is None:
            heard.append(line)
            continue
        label, text = m.group(3), m.group(4)
        if label == "Alpha":  # two more spaces make up for the shorter label
            text = text[2:] if text.startswith("  ") else "(no room) " + text
        heard.append((int(m.group(1)), int(m.group(2)), label, text and text[:CUT]))
    return heard


def compare(words, job, rate):
    compare_as(words, job, rate, False)
    if any(kind in DATA for _, kind, _ in job):
        compare_as(words, job, rate, True)


def compare_as(words, job, rate, all_numeric):
    expected = [(*rest, text and text[:CUT]) for *rest, text in (as_printed(page, all_numeric) for page in sending_order(job))]
    heard = hear(words, rate, all_numeric)
    if heard == expected:
        return
    at = next((n for n, (e, h) in enumerate(zip(expected, heard)) if e != h), min(len(expected), len(heard)))
    raise Difference("at %d bits a second, page %d of the transmission (of %d; heard %d)\n  expected %r\n  heard    %r" % (
        rate, at + 1, len(expected), len(heard),
        expected[at] if at < len(expected) else None, heard[at] if at < len(heard) else None))


# The jobs.

def reserved(identity):
    return identity >> 3 in (IDLE >> 13 & 0x3FFFF, SYNC >> 13 & 0x3FFFF)


def draw_identity(rng):
    while True:
        identity = rng.getrandbits(21)
        if not reserved(identity):
            return identity


def draw_text(rng, kind, length):
    if kind == NUMERIC:
        text = bytes(rng.choice(DIGITS) for _ in range(length))
        return text[:-1] + b"7" if text.endswith(b" ") else text
    if kind in DATA:
        return bytes(rng.choice(HEX) for _ in range(5 * length))
    signs = ALL_BYTES if rng.random() < 0.1 else PRINTABLE
    return bytes(rng.choice(signs) for _ in range(length))


def draw_page(rng, identity=None):
    identity = draw_identity(rng) if identity is None else identity
    kind = rng.choice((*TONES, NUMERIC, ALPHA, *DATA, PHRASE))
    if kind in TONES:
        return identity, kind, b""
    if kind == PHRASE:
        return identity, kind, rng.choice(BOOK)
    most = 60 if kind == NUMERIC else 240 if kind == ALPHA else 84
    length = rng.randint(1, rng.choice((5, 20, most)))
    return identity, kind, draw_text(rng, kind, length)


def draw_job(rng):
    pages = rng.choice((1, 2, 3, 5, 8, 13, 24, 48))
    shape = rng.randrange(4)
    frame, same = rng.randrange(8), draw_identity(rng)
    job = []
    for _ in range(pages):
        identity = draw_identity(rng)
        if shape == 0:  # all in a frame
            identity = identity & ~7 | frame
        elif shape == 1 and rng.random() < 0.5:  # many with one identity
            identity = same
        job.append(draw_page(rng, identity))
    return job


def fixed_jobs(rng):
    some = 0x0AB40
    for frame in range(8):
        for function in TONES:
            yield [(some + frame, function, b"")]
    yield [(some + frame, function, b"") for frame in range(8) for function in TONES]
    yield [(some + frame, function, b"") for frame in reversed(range(8)) for function in reversed(TONES)]
    # Identities: none, each and all of the bits, and the neighbours of the reserved ones.
    ends = [0, 0x1FFFFF, 0x1EA26F, 0x1EA278, 0x1F347F, 0x1F3488] + [1 << n for n in range(21)]
    yield [(identity, n % 4, b"") for n, identity in enumerate(ends)]
    for identity in ends[:6]:
        yield [(identity, NUMERIC, b"42"), (identity, ALPHA, b"Answer"), (identity, 2, b"")]
    # Every length.
    for first in (1, 21, 41):
        yield [(draw_identity(rng), NUMERIC, draw_text(rng, NUMERIC, n)) for n in range(first, first + 20)]
    for first in range(1, 241, 24):
        yield [(draw_identity(rng), ALPHA, bytes(rng.choice(PRINTABLE) for _ in range(n))) for n in range(first, first + 24)]
    for first in range(1, 84, 12):
        yield [(draw_identity(rng), DATA[n % 2], draw_text(rng, DATA[n % 2], n)) for n in range(first, first + 12)]
    yield [(some + n, kind, draw_text(rng, kind, n)) for kind in DATA for n in (1, 2, 83, 84)]
    # Every digit at every place of a group, every bit of a group alone, and groups that are all alike.
    yield [(some + kind, kind, HEX * 5) for kind in DATA]
    yield [(some + kind, kind, b"".join(b"%05X" % (1 << n) for n in range(20))) for kind in DATA]
    yield [(some, 6, b"00000" * 84), (some, 7, b"FFFFF" * 30), (some, 6, b"33333" * 84)]
    # Every phrase; the same phrase to several receivers, and once more written out.
    for first in (0, 48, 96):
        yield [(draw_identity(rng), PHRASE, phrase) for phrase in BOOK[first:first + 48]]
    yield [(some, PHRASE, BOOK[99]), (some + 3, PHRASE, BOOK[99]), (some, ALPHA, BOOK[99]), (some + 5, PHRASE, BOOK[0])]
    # Every character, alone and together.
    yield [(some, NUMERIC, DIGITS), (some, NUMERIC, DIGITS[::-1]), (some, NUMERIC, b"    1")]
    yield [(some + n % 8, NUMERIC, bytes([c])) for n, c in enumerate(DIGITS) if c != 32]
    yield [(some, ALPHA, ALL_BYTES), (some, ALPHA, ALL_BYTES[::-1]), (some, ALPHA, PRINTABLE), (some, ALPHA, b"  two spaces  ")]
    for first in range(0, len(ALL_BYTES), 48):
        yield [(some + n % 8, ALPHA, bytes([c])) for n, c in enumerate(ALL_BYTES[first:first + 48])]
    for c in (1, 10, 17, 32, 64, 127):
        yield [(some, ALPHA, bytes([c]) * (100 if c == 127 else 240))]
    yield [(some, ALPHA, b"A<NUL>"), (some, ALPHA, b"<LF>"), (some, ALPHA, b"\n"), (some, ALPHA, b"%s%d%n")]
    # Messages that end about the end of a batch, alone and with a page behind them.
    for frame in range(8):
        for words in (14 - 2 * frame, 15 - 2 * frame, 16 - 2 * frame, 31 - 2 * frame):
            if words > 0:
                page = (some + frame, ALPHA, bytes(rng.choice(PRINTABLE) for _ in range(words * 20 // 7)))
                yield [page]
                yield [page, (some + 7, 1, b""), (some, 2, b"")]
    # Pauses after a message: in a frame's first slot and its second, in the last ones of a batch, and in the first ones behind a
    # sync. Messages and tones of that frame wait, and a tone of the next frame shows where a message had to wait longer.
    for words in (1, 2, 13, 14, 15, 16):
        frame = (1 + words) % 16 // 2
        first = (some, ALPHA, PRINTABLE[:words * 20 // 7])
        message, tone, later = (some + 8 + frame, NUMERIC, b"1"), (some + 8 + frame, 1, b""), (some + 16 + (frame + 1) % 8, 2, b"")
        yield [first, message, later]
        yield [first, message, tone, later]
        yield [first, message, message, tone, tone, later]
        yield [first, (some + 8 + frame, 6, b"12345"), tone, later]
        yield [first, (some + 8 + frame, PHRASE, BOOK[1]), tone, later]
        yield [first, tone, message, later]
    # Full frames; a last word that is an address; messages in the last slots.
    yield [(some + 7, 1, b""), (some + 15, 2, b"")]
    yield [(some, 0, b"")] * 3
    yield [(some + 5, n % 4, b"") for n in range(48)]
    yield [(some + 7, NUMERIC, b"1")]
    yield [(some + 7, NUMERIC, b"1"), (some + 7, ALPHA, b"A"), (some, 3, b"")]
    yield [(some + n % 8, ALPHA, bytes(rng.choice(PRINTABLE) for _ in range(240))) for n in range(48)]


# Spoilt listings, each of which has to be found.

def spoilt(words, rng):
    used = [n for n, word in enumerate(words) if n >= PREAMBLE_WORDS and word not in (IDLE, SYNC)]
    changed = list(words)
    changed[rng.choice(used)] ^= 1 << rng.randrange(32)
    return changed


def finds(words, job, rate):
    try:
        compare(words, job, rate)
    except Difference:
        return True
    return False


def check(sending, receiving, job, rate, rng):
    """A job is heard as it should be, and received; where there is a rate, at that rate a wrong bit is found, and it is mended."""
    words = send(sending, job)
    for each in RATES:
        compare(words, job, each)
    receive(receiving, words, job)
    if rate is None:
        return
    wrong = spoilt(words, rng)
    if not finds(wrong, job, rate):
        raise Difference("a wrong bit wasn't found")
    receive(receiving, wrong, job)


def exchanged_frames_are_found(sending):
    job = [(9, NUMERIC, b"12")]
    words = send(sending, job)
    first = PREAMBLE_WORDS + 1
    words[first:first + 4] = words[first + 2:first + 4] + words[first:first + 2]
    return finds(words, job, RATES[0])


def program(arguments, at, name):
    """The path of a program: an argument, or the one that is built here."""
    built = os.path.join(os.path.dirname(os.path.abspath(__file__)), "..", "..", "target", "bin", name)
    return os.path.abspath(arguments[at] if len(arguments) > at else built)


def compared(jobs):
    """What the jobs had in them."""
    pages = dict.fromkeys(("tone", *SORTS.values()), 0)
    ambiguous = cut = 0
    for page in (page for job in jobs for page in job):
        pages[SORTS.get(page[1], "tone")] += 1
        ambiguous += is_ambiguous(page)
        cut += page[1] == ALPHA and len(as_printed(page, False)[3]) > CUT
    print("outside: %d jobs with %d pages compared at %s bits a second: %s" % (
        len(jobs), sum(pages.values()), " and ".join(map(str, RATES)), ", ".join("%d %s" % (n, k) for k, n in pages.items())))
    print("outside: %d of the texts have control characters or their names and are compared as printed only, %d of these in part" % (
        ambiguous, cut))


def main(arguments):
    sending, receiving = program(arguments, 0, "page_send"), program(arguments, 3, "page_receive")
    seed = int(arguments[1]) if len(arguments) > 1 else 1
    drawn = int(arguments[2]) if len(arguments) > 2 else 60
    if shutil.which(DECODER) is None:
        print("outside: %s isn't installed, nothing compared" % DECODER)
        return 0
    for path in (sending, receiving):
        if not os.access(path, os.X_OK):
            print("outside: no program at %s" % path)
            return 2
    rng = random.Random(seed)
    jobs = list(fixed_jobs(rng)) + [draw_job(rng) for _ in range(drawn)]
    for number, job in enumerate(jobs):
        try:
            check(sending, receiving, job, None if number % 3 else RATES[number % 2], rng)
        except Difference as difference:
            print("outside: job %d differs, %s\nthe job:\n%s" % (number + 1, difference, job_lines(job)), end="")
            return 1
    if not exchanged_frames_are_found(sending):
        print("outside: two exchanged frames weren't found")
        return 1
    compared(jobs)
    print("outside: %d spoilt listings found; all jobs received; no difference" % (-(-len(jobs) // 3) + 1))
    return 0


if __name__ == "__main__":
    sys.exit(main(sys.argv[1:]))
