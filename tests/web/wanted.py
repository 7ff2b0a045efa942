"""What the page has to show, by what the program prints."""
import base64
import json
import re
import subprocess

STEERING = re.compile("[\0-\x1f\x7f-\x9f\u061c\u200e\u200f\u2028-\u202e\u2066-\u206f\ufeff\ufff9-\ufffb]")
KINDS = {"PATIENT": "Patient", "STUDY": "Study", "SERIES": "Series"}
STATES = {"MISSING": "missing", "UNREADABLE": "unreadable", "DIFFERS": "changed", "MISLABELLED": "mislabelled",
          "NODIGEST": "no digest", "BADID": "no file name"}


def answer(program, *words, **more):
    """The status, lines and errors of the program, in UTF-8."""
    done = subprocess.run([program, *words], capture_output=True, check=False, **more)
    return done.returncode, done.stdout, done.stderr


# The page knows a disc by the name of its folder.
def listed(program, disc):
    return answer(program, "list", "--long", "--json", disc.name, cwd=disc.parent)


def checked(program, disc):
    return answer(program, "check", "--keys", "--strict", "--json", disc.name, cwd=disc.parent)


def objects(lines):
    return [json.loads(line) for line in lines.decode().split("\n") if line]


def person(value):
    if value is None or isinstance(value, str):
        return value or ""
    groups = []
    for name in ("Alphabetic", "Ideographic", "Phonetic"):
        if value.get(name):
            family, *more = [part.strip() for part in value[name].split("^")]
            groups.append(", ".join(filter(None, [family, " ".join(filter(None, more))])))
    return f"{groups[0]} ({', '.join(groups[1:])})" if len(groups) > 1 else "".join(groups)


def value(elements, tag):
    """The values of an element, as the page shows them."""
    found = elements.get(tag)
    if not found:
        return ""
    if "InlineBinary" in found:
        data = base64.b64decode(found["InlineBinary"])
        if "vr_recorded" not in found:
            return f"{len(data):,} byte" + "s" * (len(data) != 1)
        return re.sub("[^ -~]", "?", data.decode("latin1")).strip()
    if found["vr"] == "SQ":
        count = len(found.get("Value", []))
        return f"{count:,} item" + "s" * (count != 1)
    texts = [person(it) if found["vr"] == "PN" else "" if it is None else str(it) for it in found.get("Value", [])]
    return " \\ ".join(filter(None, texts))


def date(text):
    return f"{text[:4]}-{text[4:6]}-{text[6:]}" if re.fullmatch("[0-9]{8}", text) else text


def hour(text):
    return f"{text[:2]}:{text[2:4]}" if re.fullmatch(r"[0-9]{4}([0-9]{2}(\.[0-9]{1,6})?)?", text) else text


def after(word, text):
    return f"{word} {text}" if text else ""


def parts(line):
    def of(tag):
        return value(line.get("elements", {}), tag)
    kind = line["type"]
    if kind == "PATIENT":
        return [of("00100010") or "No name", after("ID", of("00100020")), after("born", date(of("00100030")))]
    if kind == "STUDY":
        when = " ".join(filter(None, [date(of("00080020")) or "No date", hour(of("00080030"))]))
        return [when, of("00081030"), after("study", of("00200010")), after("accession", of("00080050"))]
    if kind == "SERIES":
        return [of("00080060") or "No modality", after("series", of("00200011")), of("0008103E")]
    if kind == "IMAGE":
        return [after("Image", of("00200013")) or "Image", line.get("file", "")]
    return [kind or "Record", line.get("file", line["key"])]


def shown(text):
    """At most 200 characters, as JavaScript counts them, and '?' for each that steers."""
    units = text.encode("utf-16-le")
    cut = units[:400].decode("utf-16-le", "replace")
    return STEERING.sub("?", cut) + ("…" if len(units) > 400 else "")


def title(line):
    kind = KINDS.get(line["type"])
    return (f"{kind} " if kind else "") + " · ".join(map(shown, filter(None, parts(line))))


def rows(lines, findings=None):
    """The rows of a tree that is open: level, place among the records beside it, their number, whether it is open,
    text, number of files, and state. Without findings nothing was checked."""
    records = [line for line in lines if line["line"] == "RECORD"]
    beside, above, path = {}, {}, []
    for at, line in enumerate(records):
        del path[line["level"]:]
        above[at] = path[-1] if path else None
        beside.setdefault(above[at], []).append(at)
        path.append(at)
    places = {at: place for some in beside.values() for place, at in enumerate(some, 1)}
    files = [int("file" in line) for line in records]
    states, faulty = {}, [0] * len(records)
    for finding in findings or []:
        for at, line in enumerate(records):
            named = "file" in finding and line.get("file") == finding["file"]
            if (named or finding.get("offset") == line["offset"]) and at not in states:
                states[at] = finding["line"]
                faulty[at] += finding["line"] != "NODIGEST"
    for at in reversed(range(len(records))):
        if above[at] is not None:
            files[above[at]] += files[at]
            faulty[above[at]] += faulty[at]
    made = []
    for at, line in enumerate(records):
        below = beside.get(at, [])
        if at in states:
            state = STATES[states[at]]
        elif not line["in_use"]:
            state = "not in use"
        elif faulty[at]:
            state = f"{faulty[at]:,} not as recorded"
        else:
            state = "unchanged" if findings is not None and "file" in line else ""
        count = f"{files[at]:,} file" + "s" * (files[at] != 1) if below else ""
        made.append([line["level"] + 1, places[at], len(beside[above[at]]), "true" if below else None, title(line),
                     count, state])
    return made
