"""Compares the tables of docs/PROTOCOL.md with the code and with the definitions, word by word."""

import re
import subprocess
import sys

differences = []


def text_of(path):
    with open(path, encoding="utf-8") as file:
        return file.read()


def compare(what, documented, found, where):
    """Notes each row that stands in one of the two alone."""
    for row in documented:
        if row not in found:
            differences.append(f"{what}: docs/PROTOCOL.md has {row}, and {where} has not")
    for row in found:
        if row not in documented:
            differences.append(f"{what}: {where} has {row}, and docs/PROTOCOL.md has not")
    if documented != found and sorted(documented) == sorted(found):
        differences.append(f"{what}: {where} has another order than docs/PROTOCOL.md")


def documented(head, count):
    """The rows of the table with these column heads. A table of another length was not read right, or has changed."""
    lines = text_of("docs/PROTOCOL.md").split("\n")
    first = lines.index(head)
    rows = []
    for line in lines[first + 2 :]:
        if not line.startswith("|"):
            break
        rows.append(tuple(cell.strip() for cell in line.strip()[1:-1].split("|")))
    if len(rows) != count:
        differences.append(f"docs/PROTOCOL.md: {len(rows)} rows below {head}, and not {count}")
    return rows


def camel(name):
    return "".join(word.capitalize() for word in re.split(r"[.-]", name))


def snake(name):
    return re.sub(r"(?<!^)(?=[A-Z])", "_", name).lower()


FIELD_KINDS = {
    "Bit": "bit",
    "Octet": "octet",
    "Short": "short",
    "Long": "long",
    "LongLong": "long-long",
    "ShortStr": "short-string",
    "LongStr": "long-string",
    "Table": "table",
}


def methods_of_code():
    """The rows of table.rt, each under the kind that row_for gives it to."""
    code = text_of("crates/amqp_method/src/table.rt")
    statics = {}
    row = r'static (\w+): Row =\s*method!\((\d+) (\d+) "([^"]+)" from (\w+), content (\w+), answers (None|Some\(Kind::(\w+)\))(?:,\s*wants (\w+)(?:\((\d+)\))?)?;([^;]*)\);'
    for name, *cells in re.findall(row, code):
        statics[name] = cells
    given = re.findall(r"Kind::(\w+) => &(\w+),", code)
    return {kind: code_row(*statics[name]) for kind, name in given}


def code_row(class_id, method_id, name, sender, content, _answer, answered, wanted, place, fields):
    read = re.findall(r'(field|reserved) (\w+) "([^"]+)"', fields)
    return method_row(class_id, method_id, name, sender, content, answered, wanted or "Never", place, read)


def reply_wanted(wanted, place, fields):
    """What the documented table says of the reply that a method wants; the place is that of no-wait among the arguments."""
    if wanted != "UnlessNoWait":
        return {"Always": "always", "Never": ""}[wanted]
    arguments = [label for mark, _, label in fields if mark != "reserved"]
    return "unless no-wait" if arguments[int(place)] == "no-wait" else f"unless {arguments[int(place)]}"


def method_row(class_id, method_id, name, sender, content, answered, wanted, place, fields):
    words = [f"{'reserved ' if mark == 'reserved' else ''}{FIELD_KINDS[kind]} {label}" for mark, kind, label in fields]
    wants = reply_wanted(wanted, place, fields)
    return (class_id, method_id, name, sender.lower(), "yes" if content == "true" else "", answered, wants, "; ".join(words))


def methods_of_definitions():
    specs = text_of("crates/amqp_method/specs/Methods.antt")
    row = (
        r'^row (\w+) =\s+method (\d+) (\d+) \(codes "([^"]+)"\) (\w+) (\w+) (?:None|\(Some (\w+)\)) '
        r"(?:\(UnlessNoWait (\d+)\)|(\w+))\s+((?:.|\n    )*)$"
    )
    rows = {}
    for kind, class_id, method_id, name, sender, content, answered, place, wanted, fields in re.findall(row, specs, re.M):
        read = re.findall(r'(field|reserved_field) (\w+) \(codes "([^"]+)"\)', fields)
        read = [("reserved" if mark == "reserved_field" else "field", what, label) for mark, what, label in read]
        rows[kind] = method_row(class_id, method_id, name, sender, content, answered, wanted or "UnlessNoWait", place, read)
    return rows


def ids_of_code():
    """The kinds that kinds.rt gives for a class id and a method id."""
    code = text_of("crates/amqp_method/src/kinds.rt")
    classes = re.findall(r"(\d+) => (\w+_kind)\(id\),", code)
    found = {}
    for class_id, function in classes:
        body = code.split(f"fn {function}(")[1].split("\n}\n")[0]
        for method_id, kind in re.findall(r"(\d+) => Some\(Kind::(\w+)\),", body):
            found[kind] = (class_id, method_id)
    return found


def methods():
    head = "| Class | Id | Method | Sent by | Content | Answers | Wants a reply | Fields |"
    rows = documented(head, 62)
    wanted = {camel(row[2]): row[:5] + (camel(row[5]),) + row[6:] for row in rows}
    for where, found in (("the code", methods_of_code()), ("the definition", methods_of_definitions())):
        compare("methods", sorted(wanted.items()), sorted(found.items()), where)
    ids = {camel(row[2]): row[:2] for row in rows}
    compare("ids of methods", sorted(ids.items()), sorted(ids_of_code().items()), "the code that reads ids")
    code = text_of("crates/amqp_method/src/kinds.rt")
    kinds = re.findall(r"^    (\w+),$", code.split("pub enum Kind {")[1].split("}")[0], re.M)
    compare("order of methods", [camel(row[2]) for row in rows], kinds, "the code")


# what a value is: in Rust, in the definition, its octets as counted there
VALUES = {
    "truth": ("bool", "EncodesTruth holds octets"),
    "signed 8": ("i8", "EncodesSigned w8 n octets"),
    "unsigned 8": ("u8", "EncodesNumber 1 n octets"),
    "signed 16": ("i16", "EncodesSigned w16 n octets"),
    "unsigned 16": ("u16", "EncodesNumber 2 n octets"),
    "signed 32": ("i32", "EncodesSigned w32 n octets"),
    "unsigned 32": ("u32", "EncodesNumber 4 n octets"),
    "signed 64": ("i64", "EncodesSigned w64 n octets"),
    "unsigned 64": ("u64", "EncodesNumber 8 n octets"),
    "four octets, unread": ("[u8; 4]", "EncodesOctets 4 text octets"),
    "eight octets, unread": ("[u8; 8]", "EncodesOctets 8 text octets"),
    "a scale octet and 32 bits": ("{ scale: u8, number: u32 }", "EncodesNumber 1 scale first × EncodesNumber 4 number second"),
    "nothing": ("", "octets ≡ []"),
    "long string": ("Octets", "EncodesLongString text octets"),
    "byte array": ("Octets", "EncodesLongString text octets"),
    "array": ("Vec<Value>", "EncodesLongString body octets × EncodesItems items body"),
    "table": ("Vec<(ShortStr, Value)>", "EncodesLongString body octets × EncodesPairs pairs body"),
}


def tags():
    rows = documented("| Tag | Variant | Value | Octets | Printed as |", 19)
    tags_of_code([(row[0].strip("`"), *row[1:]) for row in rows])
    tags_of_definitions([(row[0].strip("`"), *row[1:]) for row in rows])


def tags_of_code(rows):
    source = "crates/amqp_value/src/"
    read = re.findall(r"b'(.)' => Some\(Tag::(?:Fixed\(ScalarTag::)?(\w+)\)?\),", text_of(source + "tag.rt"))
    compare("tags", [row[:2] for row in rows], read, "tag.rt")
    written = text_of(source + "write.rt")
    printed = text_of(source + "display.rt")
    declared = text_of(source + "values.rt")
    said = re.findall(r"^    /// `(.)`[^\n]*\n(?:    ///[^\n]*\n)*    (\w+)", declared, re.M)
    compare("tags", [row[:2] for row in rows], said, "values.rt")
    widths = {}
    for names, width in re.findall(r"((?:ScalarTag::\w+\s*\|?\s*)+) => (\d),", text_of(source + "tag.rt")):
        widths.update({name: width for name in re.findall(r"ScalarTag::(\w+)", names)})
    for tag, variant, value, octets, _text in rows:
        rust = VALUES[value][0]
        holds = re.search(rf"^    {variant}(?:\(([^\n]*)\)| (\{{.*\}}))?,$", declared, re.M)
        if not holds or (holds[1] or holds[2] or "") != rust:
            differences.append(f"tags: values.rt doesn't declare {variant} with {rust or 'nothing'}")
        if variant in widths and widths[variant] != octets:
            differences.append(f"tags: tag.rt has {widths[variant]} octets for {variant}, and docs/PROTOCOL.md {octets}")
        if (variant in widths) != octets.isdigit():
            differences.append(f"tags: tag.rt and docs/PROTOCOL.md differ on whether {variant} has a fixed size")
        for file, text, place in (("write.rt", written, "put_value"), ("display.rt", printed, "write_value<W: fmt::Write>")):
            arm = arm_of(text, place, variant, text)
            if not re.search(rf"""['"\[]{tag}['":\[{{]""", arm):
                differences.append(f"tags: {file} has no tag {tag} for {variant}: {arm.strip()}")


def arm_of(text, function, variant, whole):
    """The arm of a match on the variant in a function, with the texts of what it calls."""
    body = text.split(f"fn {function}(")[1].split("\n}\n")[0]
    arm = re.search(rf"Value::{variant}\b[^\n]*=>([^\n]*)", body)
    if not arm:
        return ""
    called = re.match(r"\s*((?:put|write)_\w+)\(", arm[1])
    own = re.search(r"""b?["'][^"']+["']""", arm[1])
    function = called and re.search(rf"fn {called[1]}(?:<[^>]*>)?\(", whole)
    if own or not function:
        return arm[1]
    return " ".join(re.findall(r"""b?["'][^"']+["']""", whole[function.end():].split("\n}\n")[0]))


def tags_of_definitions(rows):
    encoding = text_of("crates/amqp_value/specs/Encoding.antt")
    texts = text_of("crates/amqp_value/specs/Text.antt").replace("scalar_text (scaled ", "scalar_text (decimal ")
    reading = text_of("crates/amqp_value/specs/Reading.antt")
    read = [(chr(int(code)), name) for code, name in re.findall(r"octet == (\d+) then Some \(?(?:Fixed scalars\.)?(\w+)\)?", reading)]
    compare("tags", [row[:2] for row in rows], read, "the definition of reading")
    codes = re.search(r"^tags = (.*) ∷ \[\]$", encoding, re.M)[1].split(" ∷ ")
    compare("tags", [row[0] for row in rows], [chr(int(code)) for code in codes], "the list of tags")
    for tag, variant, value, _octets, _text in rows:
        name = snake(variant)
        code = re.search(rf"^(?:scalar_tag|tag_octet) \(?{name}\b[^=]*= (\d+)", encoding, re.M)
        if not code or chr(int(code[1])) != tag:
            differences.append(f"tags: the definition gives {variant} another tag than {tag}")
        field = re.search(rf"^ *(?:EncodesScalar|EncodesField) \(?{name}\b[^=]*=([^\n]*\n?[^\n]*)", encoding, re.M)
        if not field or VALUES[value][1] not in field[1]:
            differences.append(f"tags: the definition doesn't encode {variant} as {value}")
        text = re.search(rf"^ *(?:scalar_text|value_text) \(?{name}\b[^=]*= *([^\n]*)", texts, re.M)
        if variant == "Boolean":
            text = re.search(r'truth_text true = (codes "t:1")', texts)
        if not text or not re.search(rf'codes "{tag}[:"\[{{]?', text[1]):
            differences.append(f"tags: the definition prints {variant} without the tag {tag}")


def properties():
    rows = documented("| Bit | Property | Field | Kind |", 14)
    compare("bits of properties", [row[0] for row in rows], [str(bit) for bit in range(15, 1, -1)], "the layout")
    code = text_of("crates/amqp_method/src/headers.rt").split("pub struct Properties {")[1].split("}")[0]
    rust = {"short-string": "ShortStr", "table": "Table", "octet": "u8", "long-long": "u64"}
    fields = re.findall(r"pub (\w+): Option<(\w+)>,", code)
    compare("properties", [(row[2], rust[row[3]]) for row in rows], fields, "headers.rt")
    lent = text_of("crates/amqp_method/src/properties.rt").split("fn lent_properties")[1].split("]\n}")[0]
    functions = {"short-string": "text", "table": "table", "octet": "octet", "long-long": "long_long"}
    order = re.findall(r"(\w+)\(&?properties\.(\w+)\)", lent)
    compare("properties", [(functions[row[3]], row[2]) for row in rows], order, "properties.rt")
    table = text_of("crates/amqp_method/src/properties.rt").split("static PROPERTY_ROWS")[1].split("\n];")[0]
    entries = re.findall(r'name: "([^"]+)",\s*flag: (\d+),\s*kind: FieldKind::(\w+),', table)
    found = [(flag, name, FIELD_KINDS[kind]) for name, flag, kind in entries]
    compare("properties", [(row[0], row[1], row[3]) for row in rows], found, "the table in properties.rt")
    specs = text_of("crates/amqp_method/specs/Properties.antt").split("property_rows =")[1].split("[]")[0]
    defined = [(name, FIELD_KINDS[kind]) for kind, name in re.findall(r'property (\w+) \(codes "([^"]+)"\)', specs)]
    compare("properties", [(row[1], row[3]) for row in rows], defined, "the definition")
    view = text_of("crates/amqp_method/specs/HeaderView.antt").split("properties_view p =")[1].split("[]")[0]
    seen = {"short_string": "short-string", "table_argument": "table", "octet": "octet", "long_long": "long-long"}
    compare("properties", [(row[2], row[3]) for row in rows], [(name, seen[kind]) for kind, name in re.findall(r"present (\w+) p\.(\w+)", view)], "the view")


def fault_texts(path):
    return re.findall(r'#\[error\("([^"]*)"\)\]\s*(\w+)(?:\(\w+\))?(?: = (\d+))?,', text_of(path).split("Kind {")[1])


def faults():
    blocks = text_of("docs/PROTOCOL.md").split("| Number | Fault | Text | Help |\n")[1:]
    help_text = text_of("crates/amqp_command/src/help.rt")
    sources = (
        ("amqp_frame", "faults.rt", "number_of", 5, ""),
        ("amqp_value", "fault.rt", "fault_number", 6, "2."),
        ("amqp_method", "faults.rt", "number_of", 6, ""),
    )
    if len(blocks) != len(sources):
        differences.append("docs/PROTOCOL.md: not three tables of faults")
    helped = {True: [], False: []}
    for block, (crate, file, function, count, prefix) in zip(blocks, sources):
        lines = [line for line in block.split("\n\n")[0].split("\n")[1:] if line.startswith("|")]
        rows = [tuple(cell.strip() for cell in line.strip()[1:-1].split("|")) for line in lines]
        if len(rows) != count:
            differences.append(f"docs/PROTOCOL.md: {len(rows)} faults of {crate}, and not {count}")
        found = fault_texts(f"crates/{crate}/src/{file}")
        numbers = dict(re.findall(r"MethodFaultKind::(\w+)(?:\(_\))? => (\d+)", text_of(f"crates/{crate}/src/{file}")))
        code = [(number or numbers.get(name, ""), name, text) for text, name, number in found]
        compare(f"faults of {crate}", [row[:3] for row in rows], code, "the code")
        specs = text_of(f"crates/{crate}/specs/Faults.antt")
        defined = [(number, name) for name, number in re.findall(rf"^{function} \(?(\w+)(?: kind\))? = (\d+)$", specs, re.M)]
        compare(f"faults of {crate}", [row[:2] for row in rows], defined, "the definition")
        helped[crate == "amqp_frame"] += [(prefix + row[0], row[3]) for row in rows if row[3]]
    shown = re.findall(r"^    (\d(?:\.\d)?) {2,}(.+)$", help_text, re.M)
    compare("help", sorted(helped[False] + helped[True]), sorted(shown), "the help of show")


def refusals():
    specs = text_of("crates/amqp_model/specs/End/Asks.antt")
    found = [(number, name) for name, number in re.findall(r"^refusal_number (\w+) = (\d+)$", specs, re.M)]
    compare("refusals", documented("| Number | Refusal |", 11), found, "the definition")
    rows = documented("| Number | Fault |", 4)
    specs = text_of("crates/amqp_core/specs/Faults/Numbers.antt")
    found = [(number, name) for name, number in re.findall(r"^config_fault_number config\.(\w+) = (\d+)$", specs, re.M)]
    compare("configuration faults", rows, found, "the definition")
    enum = text_of("crates/amqp_core/src/faults.rt").split("pub enum ConfigFault {")[1].split("\n}")[0]
    found = [(number, name) for name, number in re.findall(r"^    (\w+) = (\d+),$", enum, re.M)]
    compare("configuration faults", rows, found, "the code")


def closes():
    specs = text_of("crates/amqp_model/specs/End/Closes.antt")
    numbers = re.findall(r"^number_of (\w+) = (\d+)$", specs, re.M)
    texts = dict(re.findall(r'^text_of (\w+) = codes "([^"]+)"$', specs, re.M))
    found = [(number, name, texts.get(name, "")) for name, number in numbers]
    compare("closes", documented("| Code | Name | Text |", 8), found, "the definition")


def reply_codes():
    """The reply codes: the rows of the code's constants, of its names and of its hard errors, and those of the definition."""
    rows = documented("| Code | Name | Hard |", 19)
    code = text_of("crates/amqp_method/src/reply.rt")
    numbers = dict(re.findall(r"^pub const (\w+): u16 = (\d+);$", code, re.M))
    names = re.findall(r'^        (\w+) => Some\("([^"]+)"\),$', code, re.M)
    hard = set(re.findall(r"^\s+(?:\| )?([A-Z_]+)$", code.split("pub fn is_hard")[1], re.M))
    found = [(numbers[constant], name, "yes" if constant in hard else "") for constant, name in names]
    compare("reply codes", rows, found, "the code")
    compare("reply codes", sorted(row[0] for row in rows), sorted(numbers.values()), "the code's constants")
    specs = text_of("crates/amqp_method/specs/Replies.antt")
    found = re.findall(r'^    (reply|hard_error) (\d+) \(codes "([^"]+)"\) ∷', specs, re.M)
    found = [(number, name, "yes" if kind == "hard_error" else "") for kind, number, name in found]
    compare("reply codes", rows, found, "the definition")


def frames():
    code = text_of("crates/amqp_frame/src/frames.rt")
    specs = text_of("crates/amqp_frame/specs/Frame.antt")
    rows = documented("| Type octet | Kind | Printed as |", 4)
    numbers = re.findall(r"^    (\w+) = (\d),$", code, re.M)
    names = dict(re.findall(r'FrameKind::(\w+) => write!\(f, "(\w+)"\)', code))
    compare("frame types", rows, [(number, kind, names.get(kind, "")) for kind, number in numbers], "the code")
    read = [(number, kind) for number, kind in re.findall(r"(\d) => Some\(FrameKind::(\w+)\)", code)]
    compare("frame types", [row[:2] for row in rows], read, "the code that reads them")
    numbers = re.findall(r"^type_octet (\w+) = (\d+)$", specs, re.M)
    names = dict(re.findall(r'^kind_name (\w+) = codes "(\w+)"$', specs, re.M))
    compare("frame types", rows, [(number, kind, names.get(kind, "")) for kind, number in numbers], "the definition")


# where each constant stands: crate, folder, file, and the pattern of its value
CONSTANTS = (
    ("end octet", "crates/amqp_frame/src/frames.rt", r"const END: u8 = (\w+);"),
    ("end octet", "crates/amqp_frame/specs/Frame.antt", r"^END = (\d+)$"),
    ("protocol header", "crates/amqp_model/specs/History/Negotiation.antt", r"^PROTOCOL_HEADER = ([\d ∷]+) ∷ \[\]$"),
    ("greatest frame that `show` reads", "crates/amqp_text/src/listing.rt", r"const LIMIT: u32 = ([\d_]+);"),
    ("greatest frame that `show` reads", "crates/amqp_command/src/help.rt", r"A frame has at most (\d+) octets"),
    ("least agreed frame size", "crates/amqp_model/specs/History/Negotiation.antt", r"^FRAME_MIN = (\d+)$"),
    ("greatest agreed frame size", "crates/amqp_model/specs/End/Fitting.antt", r"^FRAME_MOST = (\d+)$"),
    ("deepest field table", "crates/amqp_value/src/tables.rt", r"const MAX_DEPTH: usize = (\d+);"),
    ("deepest field table", "crates/amqp_value/specs/Encoding.antt", r"table_depth pairs ≤ (\d+)\)"),
    ("requests kept on a channel", "crates/amqp_model/specs/End/FrameVerdict.antt", r"^MOST_REQUESTS = (\d+)$"),
)


def constants():
    rows = dict(documented("| Constant | Value |", 7))
    for name, path, pattern in CONSTANTS:
        found = re.search(pattern, text_of(path), re.M)
        value = " ".join(str(int(word.replace("_", ""), 0)) for word in re.split(r" ∷ ", found[1])) if found else "nothing"
        if value != rows.get(name):
            differences.append(f"constants: {path} has {value} for the {name}, and docs/PROTOCOL.md {rows.get(name)}")


def typed_methods():
    """The typed methods are those that the script writes from the table."""
    run = subprocess.run([sys.executable, "tools/typed_methods.py", "--check"], capture_output=True, text=True)
    if run.returncode != 0:
        differences.append("typed methods: " + (run.stdout.strip() or run.stderr.strip()).replace("\n", "; "))


for part in (frames, constants, methods, typed_methods, tags, properties, faults, refusals, closes, reply_codes):
    try:
        part()
    except (OSError, ValueError, KeyError, IndexError, TypeError) as error:
        differences.append(f"{part.__name__}: not read: {error!r}")
for difference in differences:
    print(difference)
sys.exit(1 if differences else 0)
