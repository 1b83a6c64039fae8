"""Cases of the codecs of AMQP 0-9-1. A codec is a generator that yields calls, is sent answers, and returns a text."""

from .calls import together
from .calls_091 import bytes_in, call, fault_text, fields, fine, fine_after, name_of, number_first, parts, squeezed
from .told_bytes import NoCase, told_bytes

# The most bytes that come before the others.
KEPT_MAX = 24
KINDS = {"Method": 1, "Header": 2, "Body": 3, "Heartbeat": 8}
# What an unknown type byte is in a table of one field.
UNKNOWN_KIND = "At { fault: Syntax, at: 6 }"


def written_text(written, data):
    """What was written of what was read of bytes."""
    return " | =" if written == data else f" |{told_bytes(written)}"


def others_text(title, others, wanted):
    """The answers that differ from the wanted one."""
    return "".join(f" | {title}: {other}" for other in others if other != wanted)


def counts(data):
    """How many of these bytes come before the others."""
    return range(min(len(data), KEPT_MAX) + 1)


def header_scan_text(scan):
    """What a scan of the protocol header answers."""
    if scan == "More":
        return scan
    if name_of(scan) == "Whole":
        return f"Whole {parts(scan)[1]}"
    return fault_text(parts(scan)[0])


def header(data):
    """The protocol header, and again where its first bytes came before the others."""
    parted = [call("scan-header-parts", count, data=None) for count in counts(data)]
    answers = yield [call("scan-header", data=data)] + parted
    wanted = header_scan_text(answers[0])
    return wanted + others_text("in parts", (header_scan_text(fine_after(answer)) for answer in answers[1:]), wanted)


def frame_scan_text(scan, data):
    """What a scan of a frame came to, and what is written of it behind bytes that are there."""
    if scan == "More":
        return scan
    if name_of(scan) == "Bad":
        return fault_text(parts(scan)[0])
    frame, size = parts(scan)
    frame = fields(frame)
    payload = bytes_in(frame["payload"])
    answers = yield [call("put-frame", KINDS[frame["kind"]], frame["channel"], data=payload)]
    before, put, written = parts(answers[0])
    fine(before)
    fine(put)
    written = bytes_in(written).removeprefix(b"before")
    comma = "," if payload else ""
    return (
        f"{frame['kind']} {frame['channel']}{comma}{told_bytes(payload)} | {size}"
        + written_text(written, data[: int(size)])
    )


def frame(limit, data):
    """The first frame, also where its first bytes came before the others, and with others behind it unless cut."""
    longer = data + b"\x08\0\0"
    scans = [call("scan-frame", limit, data=longer), call("scan-frame", limit, data=data)]
    scans += [call("scan-frame-parts", limit, count, data=None) for count in counts(data)]
    answers = yield scans
    behind, first = map(fine, answers[:2])
    wanted = yield from frame_scan_text(first, data)
    # Answers that are the same need be read once.
    parted = [fine_after(answer) for answer in answers[2:] if answer != f"(Ok(()), {answers[1]})"]
    parted = yield from together(frame_scan_text(scan, data) for scan in parted)
    text = wanted + others_text("in parts", parted, wanted)
    if wanted != "More" and behind != first:
        other = yield from frame_scan_text(behind, longer)
        text += others_text("longer", [other], wanted)
    return text


def table_text(answer, data, at, less):
    """The table at an offset, its end, and what is written of it. Places are told so much less."""
    if answer.startswith("At"):
        found = fields(answer)
        return f"{found['fault']} {max(int(found['at']) - less, 0)}"
    table, end, put, written = parts(answer)
    fine(put)
    end = max(int(end) - less, 0)
    return f"{squeezed(table)} | {end}" + written_text(bytes_in(written), data[at:end])


def table(at, data):
    """The table at an offset, and again among other bytes. Behind a fault there are no others."""
    answers = yield [call("read-table", at, data=data)]
    wanted = table_text(answers[0], data, at, 0)
    among = b"\x09\x09\x09" + data + (b"" if wanted.startswith("Syntax") else b"\x09")
    answers = yield [call("read-table", at + 3, data=among)]
    return wanted + others_text("among others", [table_text(answers[0], data, at, 3)], wanted)


def kinds():
    """The type bytes that are known: the fault isn't at their place in a table of one field, with zeros behind it."""
    tables = (b"\0\0\0\x0b\x01a" + bytes([kind]) + bytes(8) for kind in range(256))
    answers = yield [call("read-table", 0, data=data) for data in tables]
    return "kinds" + "".join(f" {kind:02X}" for kind, answer in enumerate(answers) if answer != UNKNOWN_KIND)


def method_text(answer, data):
    """The ids of a method, the method, and what is written of it."""
    if answer.startswith("At"):
        return fault_text(answer)
    ids, method, put, written = parts(answer)
    fine(put)
    return f"{' '.join(parts(ids))} {squeezed(method)}" + written_text(bytes_in(written), data)


def props_text(props):
    """The properties that are there, each with its name."""
    found = ((name, value) for name, value in fields(props).items() if value != "None")
    return "".join(f" {'type' if name == 'kind' else name.replace('_', '-')} {value[5:-1]}" for name, value in found)


def content_text(answer, data):
    """The size that a content header tells, its properties, and what is written of it."""
    if answer.startswith("At"):
        return fault_text(answer)
    head, put, written = parts(answer)
    fine(put)
    head = fields(head)
    return squeezed(f"size {head['size']}{props_text(head['props'])}") + written_text(bytes_in(written), data)


def filled(verb, text_of, data):
    """What fills bytes. With one more byte they are cut off from nothing: the fault is behind the last one."""
    longer = data + b"\0"
    first, behind = yield [call(verb, data=data), call(verb, data=longer)]
    wanted = text_of(first, data)
    if first.startswith("At"):
        return wanted
    other = text_of(behind, longer)
    return wanted if other == f"Syntax {len(data)}" else f"{wanted} | longer: {other}"


def method(data):
    """The method that fills the bytes."""
    return filled("read-method", method_text, data)


def content(data):
    """The content header that fills the bytes."""
    return filled("read-content", content_text, data)


CODECS = {"header": header, "table": lambda data: table(0, data), "method": method, "content": content}


def codec_of(words):
    """A codec, and the text of its bytes; (None, "") where the words are those of none."""
    verb, _, rest = words.partition(" ")
    if verb in CODECS:
        return CODECS[verb], rest
    if verb == "frame":
        limit, rest = number_first(rest, 32)
        return lambda data: frame(limit, data), rest
    if verb == "at":
        at, rest = number_first(rest)
        return lambda data: table(at, data), rest
    return None, ""


def cuts(codec, data):
    """What a codec reads, and its answer at each shorter length, from none on."""
    text, *shorter = yield from together([codec(data)] + [codec(data[:size]) for size in range(len(data))])
    runs = []
    for answer in shorter:
        if runs and runs[-1][0] == answer:
            runs[-1][1] += 1
        else:
            runs.append([answer, 1])
    told = (f" {answer.removeprefix('Syntax ')}" + (f"*{count}" if count > 1 else "") for answer, count in runs)
    return f"{text} | cuts" + "".join(told)


def codec_case(names, line):
    """The generator of a case of a codec, or None where it is another one."""
    wants_cuts = line.startswith("cuts ")
    codec, words = codec_of(line.removeprefix("cuts "))
    if codec is None:
        if wants_cuts:
            raise NoCase(line)
        return None
    data = names.joined(words)
    return cuts(codec, data) if wants_cuts else codec(data)
