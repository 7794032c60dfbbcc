#!/usr/bin/env python3
"""Writes the files of the crate amqp_typed that restate the table of methods in docs/PROTOCOL.md: a struct for each method, its
borrowed forms, the enum of a class's methods and that of the classes, and the definitions of their calls.

    tools/typed_methods.py            writes the files
    tools/typed_methods.py --check    writes nothing, names each file that would change, and answers 1 if there is one

What the table doesn't have stands below: a sentence on each method, what a field holds where its name doesn't say it, and which
fields have a default.
"""
import pathlib
import re
import sys

ROOT = pathlib.Path(__file__).resolve().parent.parent
CRATE = ROOT / "crates" / "amqp_typed"
CLASSES = ("connection", "channel", "exchange", "queue", "basic", "tx", "confirm")

SUMMARIES = {
    "connection.start": "Begins the negotiation: names the server, and the mechanisms and locales that it has.",
    "connection.start-ok": "Picks a mechanism and a locale, and carries the first response of that mechanism.",
    "connection.secure": "Challenges the client, as a mechanism in several steps wants it.",
    "connection.secure-ok": "Answers a challenge.",
    "connection.tune": "Proposes the limits of the connection.",
    "connection.tune-ok": "Settles the limits of the connection.",
    "connection.open": "Opens the connection to a virtual host.",
    "connection.open-ok": "Says that the connection is open.",
    "connection.close": "Closes the connection, and says why.",
    "connection.close-ok": "Confirms that the connection is closed.",
    "connection.blocked": "Says that the server takes no more messages for now.",
    "connection.unblocked": "Says that the server takes messages again.",
    "channel.open": "Opens the channel.",
    "channel.open-ok": "Says that the channel is open.",
    "channel.flow": "Asks the peer to stop or to resume sending contents.",
    "channel.flow-ok": "Confirms a flow.",
    "channel.close": "Closes the channel, and says why.",
    "channel.close-ok": "Confirms that the channel is closed.",
    "exchange.declare": "Creates an exchange if it doesn't exist yet.",
    "exchange.declare-ok": "Confirms that the exchange exists.",
    "exchange.delete": "Deletes an exchange.",
    "exchange.delete-ok": "Confirms that the exchange is deleted.",
    "exchange.bind": "Binds an exchange to an exchange.",
    "exchange.bind-ok": "Confirms the binding.",
    "exchange.unbind": "Unbinds an exchange from an exchange.",
    "exchange.unbind-ok": "Confirms that the binding is gone.",
    "queue.declare": "Creates a queue if it doesn't exist yet.",
    "queue.declare-ok": "Confirms that the queue exists, and says how much it holds.",
    "queue.bind": "Binds a queue to an exchange.",
    "queue.bind-ok": "Confirms the binding.",
    "queue.unbind": "Unbinds a queue from an exchange.",
    "queue.unbind-ok": "Confirms that the binding is gone.",
    "queue.purge": "Removes the messages of a queue that await no acknowledgement.",
    "queue.purge-ok": "Says how many messages were removed.",
    "queue.delete": "Deletes a queue.",
    "queue.delete-ok": "Says how many messages were deleted with the queue.",
    "basic.qos": "Limits what the server sends ahead of acknowledgements.",
    "basic.qos-ok": "Confirms the limits.",
    "basic.consume": "Starts a consumer of a queue.",
    "basic.consume-ok": "Gives the tag of the consumer that was started.",
    "basic.cancel": "Ends a consumer.",
    "basic.cancel-ok": "Confirms that the consumer has ended.",
    "basic.publish": "Publishes a message to an exchange.",
    "basic.return": "Returns a message that could not be routed or delivered.",
    "basic.deliver": "Delivers a message to a consumer.",
    "basic.get": "Asks for one message of a queue.",
    "basic.get-ok": "Delivers the message that was asked for.",
    "basic.get-empty": "Says that the queue has no message.",
    "basic.ack": "Acknowledges one message or several.",
    "basic.reject": "Rejects a message.",
    "basic.recover-async": "Asks for all unacknowledged messages again, without a reply.",
    "basic.recover": "Asks for all unacknowledged messages again.",
    "basic.recover-ok": "Confirms that the messages come again.",
    "basic.nack": "Rejects one message or several, or says that published ones were not taken.",
    "tx.select": "Puts the channel into transactions.",
    "tx.select-ok": "Confirms that the channel uses transactions.",
    "tx.commit": "Commits the transaction, and begins the next.",
    "tx.commit-ok": "Confirms the commit.",
    "tx.rollback": "Rolls the transaction back, and begins the next.",
    "tx.rollback-ok": "Confirms the rollback.",
    "confirm.select": "Asks the server to confirm what is published on the channel.",
    "confirm.select-ok": "Confirms that the channel uses confirms.",
}

# what a field holds, by method and field, or by field alone
FIELD_DOCS = {
    "mechanisms": "The names of the mechanisms, with spaces between.",
    "locales": "The names of the locales, with spaces between.",
    "connection.start-ok.response": "In the format of the mechanism.",
    "connection.secure.challenge": "In the format of the mechanism.",
    "connection.secure-ok.response": "In the format of the mechanism.",
    "channel-max": "The greatest channel number; 0 sets no limit.",
    "frame-max": "The greatest frame, in octets with its eight of overhead; 0 sets no limit.",
    "heartbeat": "The seconds between heartbeats; 0 wants none.",
    "connection.close.class-id": "The class of the method that is at fault, or 0.",
    "connection.close.method-id": "The method that is at fault, or 0.",
    "channel.close.class-id": "The class of the method that is at fault, or 0.",
    "channel.close.method-id": "The method that is at fault, or 0.",
    "channel.flow.active": "Whether contents may be sent.",
    "channel.flow-ok.active": "Whether contents will be sent.",
    "no-wait": "The server sends no reply.",
    "exchange.declare.exchange": "The name of the exchange.",
    "exchange.declare.type": "The type of the exchange, such as `direct`, `fanout`, `topic` or `headers`: the field `type`.",
    "exchange.declare.passive": "Only asks whether the exchange exists.",
    "exchange.declare.durable": "The exchange outlives a restart of the server.",
    "exchange.declare.auto-delete": "The exchange is deleted with its last binding.",
    "exchange.declare.internal": "Nobody may publish to the exchange: it serves bindings only.",
    "exchange.delete.if-unused": "Only if nothing is bound to the exchange.",
    "exchange.bind.destination": "The exchange that gets the messages.",
    "exchange.bind.source": "The exchange that passes them on.",
    "exchange.unbind.destination": "The exchange that got the messages.",
    "exchange.unbind.source": "The exchange that passed them on.",
    "queue.declare.queue": "The name of the queue; empty for a name that the server makes up.",
    "queue.declare.passive": "Only asks whether the queue exists.",
    "queue.declare.durable": "The queue outlives a restart of the server.",
    "queue.declare.exclusive": "The queue serves this connection alone, and ends with it.",
    "queue.declare.auto-delete": "The queue is deleted with its last consumer.",
    "queue.declare-ok.message-count": "How many messages await delivery.",
    "queue.delete.if-unused": "Only if the queue has no consumers.",
    "queue.delete.if-empty": "Only if the queue has no messages.",
    "basic.qos.prefetch-size": "In octets; 0 sets no limit.",
    "basic.qos.prefetch-count": "In messages; 0 sets no limit.",
    "basic.qos.global": "The limits are those of the whole channel.",
    "basic.consume.consumer-tag": "A name of the consumer on its channel; empty for one that the server makes up.",
    "basic.consume.no-local": "No messages that this connection published.",
    "no-ack": "Messages count as acknowledged as they are sent.",
    "basic.consume.exclusive": "No other consumer may use the queue.",
    "basic.publish.exchange": "The name of the exchange; empty for the default one, which routes to queues by their names.",
    "basic.publish.mandatory": "The message is returned if it can't be routed to a queue.",
    "basic.publish.immediate": "The message is returned if no consumer can take it at once.",
    "basic.get-ok.message-count": "How many messages are left in the queue.",
    "delivery-tag": "The number of the delivery on its channel.",
    "redelivered": "The message was sent before.",
    "basic.ack.multiple": "All messages up to this one, too.",
    "basic.nack.multiple": "All messages up to this one, too.",
    "basic.recover.requeue": "To any consumer, and not to the one that had the message.",
    "basic.recover-async.requeue": "To any consumer, and not to the one that had the message.",
    "requeue": "The message goes back to its queue.",
}

# the fields that `new` doesn't take, besides bits and tables: what they begin as
DEFAULTS = {"version-major": 0, "version-minor": 9, "class-id": 0, "method-id": 0, "prefetch-size": 0}
# the bits that it takes
GIVEN = {"active"}

# by kind of field: the variant, the type that is kept, the type that is lent, the helper, and the argument
KINDS = {
    "bit": ("Bit", "bool", "bool", "bit", "bit"),
    "octet": ("Octet", "u8", "u8", "octet", "octet"),
    "short": ("Short", "u16", "u16", "short", "short"),
    "long": ("Long", "u32", "u32", "long", "long"),
    "long-long": ("LongLong", "u64", "u64", "long_long", "long_long"),
    "short-string": ("ShortStr", "ShortStr", "&'a ShortStr", "short_str", "short_string"),
    "long-string": ("LongStr", "Vec<u8>", "&'a [u8]", "long_str", "long_string"),
    "table": ("Table", "Table", "&'a Table", "table", "table"),
}
# the type of a field that lies in a payload, where it isn't the type that is lent
IN_PAYLOAD = {"short-string": "&'a [u8]", "table": "TableRef<'a>"}
# what reads a method of a known kind, in place of what asks for the kind
KNOWN_READS = {"from_method": "of_method", "from_view": "of_view"}
# the functions that take an array of so many arguments apart
COUNTS = {1: "one", 2: "two", 3: "three", 4: "four", 5: "five", 7: "seven", 8: "eight"}
PLAIN = {"bit", "octet", "short", "long", "long-long"}

HEAD = """// Written by `tools/typed_methods.py` from the table of methods in `docs/PROTOCOL.md`: change those and run it again.
"""


def camel(words):
    return "".join(word.capitalize() for word in re.split(r"[-.]", words))


def snake(words):
    return words.replace("-", "_")


class Field:
    def __init__(self, method, kind, name):
        self.method = method
        self.kind = kind
        self.label = name
        self.name = "type_name" if name == "type" else snake(name)
        self.variant, self.owned, self.lent, self.helper, self.argument = KINDS[kind]
        self.in_payload = IN_PAYLOAD.get(kind, self.lent)

    def is_plain(self):
        return self.kind in PLAIN

    def is_given(self):
        return self.label in GIVEN or not (self.kind in ("bit", "table") or self.label in DEFAULTS)

    def doc(self):
        return FIELD_DOCS.get(f"{self.method}.{self.label}") or FIELD_DOCS.get(self.label)

    def default(self):
        """What the field begins as: in code, and as the argument."""
        if self.kind == "bit":
            return "false", "bit false"
        if self.kind == "table":
            return "Table::new(alloc)", "table no_pairs"
        return str(DEFAULTS[self.label]), f"{self.argument} {DEFAULTS[self.label]}"

    def term(self, value, lent=False, in_payload=False):
        """The argument that a value of the field stands for."""
        if self.kind == "table" and in_payload:
            return f"table (table_ref_view {value})"
        if self.kind == "table":
            return f"table (table_view {value}{'.now' if lent else ''})"
        if self.kind == "long-string":
            return f"long_string {value}{'.now' if lent else '.items'}"
        if self.kind == "short-string" and lent:
            return f"short_string {value}.now"
        return f"{self.argument} {value}"


class Method:
    def __init__(self, cells):
        self.class_id, self.id, self.label, self.sender, content, self.answers, self.reply, fields = cells
        self.class_name, rest = self.label.split(".")
        self.name = camel(rest)
        self.snake = snake(rest)
        self.kind = camel(self.label)
        self.content = content == "yes"
        self.fields = []
        for field in filter(None, (field.strip() for field in fields.split(";"))):
            words = field.split(" ")
            if words[0] != "reserved":
                self.fields.append(Field(self.label, *words))

    def is_plain(self):
        return all(field.is_plain() for field in self.fields)

    def is_bare(self):
        return not self.fields

    def in_payload(self):
        """The struct that is read from a payload."""
        return self.name if self.is_plain() else f"{self.name}View<'a>"

    def sentence(self):
        text = f"{SUMMARIES[self.label]} `{self.label}`, class {self.class_id}, method {self.id}."
        return wrapped("/// ", text.split(" "), "", "/// ", 120)


def methods():
    text = (ROOT / "docs" / "PROTOCOL.md").read_text()
    head = "| Class | Id | Method | Sent by | Content | Answers | Wants a reply | Fields |\n"
    lines = text.split(head)[1].split("\n\n")[0].split("\n")[1:]
    return [Method([cell.strip() for cell in line.strip()[1:-1].split("|")]) for line in lines]


def wrapped(start, words, end, indent, width=100):
    """Words on lines, the first after `start`, the later ones after `indent`."""
    lines, line = [], start
    for place, word in enumerate(words):
        word = word + (end if place + 1 == len(words) else "")
        if len(line) + len(word) > width and line.strip() and line != indent:
            lines.append(line.rstrip())
            line = indent
        line += word + " "
    lines.append(line.rstrip())
    return lines


def list_words(terms):
    """The words of a list of arguments, `∷` at the start of all but the first."""
    words = [("∷ " if place else "") + term for place, term in enumerate(terms)]
    return words + ["∷ []"]


# ---- code


def signature(indent, head, params, result):
    line = f"{indent}{head}({', '.join(params)}) -> {result}"
    if len(line) <= 100:
        return [line]
    return [f"{indent}{head}("] + [f"{indent}    {param}," for param in params] + [f"{indent}) -> {result}"]


def clause(label, text, indent="        "):
    return f"{indent}ensures {label + ' ' if label else ''}{{ {text} }}"


def call_clause(method, terms):
    """That the call of the result has these arguments."""
    start = f"        ensures {{ {method.snake}_call result ≡ call {method.kind} "
    one = start + ("(" + " ".join(list_words(terms)) + ")" if terms else "[]") + " }"
    if len(one) <= 100 or not terms:
        return [one]
    words = list_words(terms)
    words[0] = "(" + words[0]
    lines = wrapped("            ", words, ") }", "            ")
    return [start.rstrip()] + lines


def alias_of(method):
    """Of a method without arguments: the one struct that all of them share, with the method's marker."""
    return method.sentence() + [f"pub type {method.name} = Bare<{method.kind}>;", ""]


def struct_of(method):
    lines = method.sentence()
    if method.is_plain():
        lines.append("#[derive(Clone, Copy, PartialEq, Eq, Debug)]")
    else:
        lines.append("#[derive(Debug, Drop, PartialEq, Eq)]")
    lines.append(f"pub struct {method.name} {{")
    for field in method.fields:
        if field.doc():
            lines.append(f"    /// {field.doc()}")
        lines.append(f"    pub {field.name}: {field.owned},")
    return lines + ["}", ""]


def new_of(method):
    given = [field for field in method.fields if field.is_given()]
    defaults = [field for field in method.fields if not field.is_given()]
    params = ["alloc: Global"] if any(field.kind == "table" for field in method.fields) else []
    params += [f"{field.name}: {field.owned}" for field in given]
    lines = [f"    /// {new_doc(defaults)}"]
    lines += signature("    ", "pub fn new", params, method.name)
    lines += call_clause(method, [field.term(field.name) if field.is_given() else field.default()[1] for field in method.fields])
    lines.append("    {")
    body = [field.name if field.is_given() else f"{field.name}: {field.default()[0]}" for field in method.fields]
    lines += literal("        ", method.name, body, "")
    return lines + ["    }", ""]


def new_doc(defaults):
    parts = []
    if any(field.kind == "bit" for field in defaults):
        parts.append("no bit set")
    if any(field.kind == "table" for field in defaults):
        parts.append("an empty table")
    for field in defaults:
        if field.label in DEFAULTS:
            parts.append(f"`{field.name}` {DEFAULTS[field.label]}")
    if not parts:
        return "With these arguments."
    text = parts[0] if len(parts) == 1 else ", ".join(parts[:-1]) + " and " + parts[-1]
    return f"With {text}."


def literal(indent, name, fields, end, head=""):
    """A struct literal."""
    one = f"{name} {{ {', '.join(fields)} }}"
    if len(", ".join(fields)) <= 18:
        return [f"{indent}{head}{one}{end}"]
    return [f"{indent}{head}{name} {{"] + [f"{indent}    {field}," for field in fields] + [f"{indent}}}{end}"]


def into_method_of(method):
    lines = ["    fn into_method(self, alloc: Global) -> Result<Method, OutOfMemory> {"]
    args = [f"Arg::{field.variant}(self.{field.name})" for field in method.fields]
    lines += call_lines("        ", method.kind, args)
    return lines + ["    }", ""]


def call_lines(indent, kind, args):
    array = "[" + ", ".join(args) + "]"
    if len(array) <= 62:
        one = f"alloc, Kind::{kind}, {array}"
        if len(one) <= 60:
            return [f"{indent}method_of({one})"]
        if len(args) == 1:
            return [f"{indent}method_of(", f"{indent}    alloc,", f"{indent}    Kind::{kind},", f"{indent}    {array},", f"{indent})"]
        return [f"{indent}method_of(", f"{indent}    alloc,", f"{indent}    Kind::{kind},", f"{indent}    {array},", f"{indent})"]
    lines = [f"{indent}method_of(", f"{indent}    alloc,", f"{indent}    Kind::{kind},", f"{indent}    ["]
    lines += [f"{indent}        {arg}," for arg in args]
    return lines + [f"{indent}    ],", f"{indent})"]


def of_method_of(method):
    lines = [f"    fn of_method(method: Method) -> {method.name} {{"]
    if method.is_plain():
        return lines + [f"        {method.name}::of_ref(&method)", "    }", ""]
    count = len(method.fields)
    # no name for each argument: each local of a function is in the proof of each of its steps
    lines.append(f"        let taken = {COUNTS[count]}(own_args(method, Kind::{method.kind}));")
    places = ["taken"] if count == 1 else [f"taken.{place}" for place in range(count)]
    body = [f"{field.name}: {field.helper}({place})" for field, place in zip(method.fields, places)]
    lines += literal("        ", method.name, body, "")
    return lines + ["    }", ""]


def lent_fields(method, suffix):
    return [f"{field.name}: {field.helper}{suffix}(method, {place})" for place, field in enumerate(method.fields)]


def owned_impl_of(method):
    lines = [
        f"impl Typed for {method.name} {{",
        f"    ghost KIND = {{ {method.kind} }};",
        "",
        f"    ghost says = {{ {method.snake}_call }};",
        "",
        f"    const KIND: Kind = Kind::{method.kind};",
        "",
    ]
    return lines + (into_method_of(method) + of_method_of(method))[:-1] + ["}", ""]


def lent_impl_of(method, name, short, said):
    lines = [f"impl<'a> TypedRef<'a> for {name} {{", f"    type Of = {method.name};", "", f"    ghost lends = {{ {said}_call }};", ""]
    lines.append(f"    fn of_ref(method: &'a Method) -> {name} {{")
    return lines + literal("        ", short, lent_fields(method, "_at"), "") + ["    }", "}", ""]


def view_impl_of(method, name, short, said):
    lines = [f"impl<'a> TypedView<'a> for {name} {{", f"    type Of = {method.name};", "", f"    ghost shows = {{ {said}_call }};", ""]
    lines.append(f"    fn of_view(method: MethodRef<'a>) -> {name} {{")
    return lines + literal("        ", short, lent_fields(method, "_in"), "") + ["    }", "}", ""]


def message_of(method):
    if not method.content:
        return []
    message = f"letter_with ({method.snake}_call self) (properties_view properties) body.items"
    return [
        "    /// The message: the method with these arguments, and the content that follows it.",
        "    pub fn message(",
        "        self,",
        "        alloc: Global,",
        "        properties: Properties,",
        "        body: Vec<u8>,",
        "    ) -> Result<Message, OutOfMemory>",
        "        ensures { IfOk result (λ m. message_view m",
        f"            ≡ {message}) }}",
        "    {",
        "        content_of(self.into_method(alloc), properties, body)",
        "    }",
        "",
    ]


def impl_of(method):
    lines = [f"impl {method.name} {{"]
    lines += (new_of(method) + message_of(method))[:-1] + ["}", ""]
    lines += owned_impl_of(method)
    if method.is_plain():
        lines += lent_impl_of(method, method.name, method.name, method.snake)
        lines += view_impl_of(method, method.name, method.name, method.snake)
    return lines


def ref_of(method):
    if method.is_plain():
        return []
    name = method.name + "Ref"
    lines = [f"/// [`{method.name}`], lent by a method."]
    lines.append("#[derive(Clone, Copy)]")
    lines.append(f"pub struct {name}<'a> {{")
    lines += [f"    pub {field.name}: {field.lent}," for field in method.fields]
    return lines + ["}", ""] + lent_impl_of(method, name + "<'a>", name, method.snake + "_ref")


def view_of(method):
    if method.is_plain():
        return []
    name = method.name + "View"
    lines = [f"/// [`{method.name}`], as it lies in its payload."]
    lines += ["#[derive(Clone, Copy)]", f"pub struct {name}<'a> {{"]
    lines += [f"    pub {field.name}: {field.in_payload}," for field in method.fields]
    return lines + ["}", ""] + view_impl_of(method, name + "<'a>", name, method.snake + "_view")


def uses(text, names):
    """Those of the names that the text has as words."""
    return [name for name in names if re.search(rf"(?<![\w.:]){name}\b", text)]


def class_file(name, all_methods):
    of_class = [method for method in all_methods if method.class_name == name]
    items = []
    for method in of_class:
        if method.is_bare():
            items += alias_of(method)
        else:
            items += struct_of(method) + impl_of(method) + ref_of(method) + view_of(method)
    items += any_of_class(name, of_class)
    code = "\n".join(items[:-1])
    clauses = "\n".join(line for line in items if "ensures" in line or line.startswith("            "))
    prelude = ["◌≡◌"]
    own = [method for method in of_class if not method.is_bare()]
    if "IfOk" in clauses:
        prelude.append("IfOk")
    if "bit false" in clauses:
        prelude.append("false")
    if "∷" in clauses:
        prelude += ["◌∷◌", "[]"]
    lines = [f"//! The methods of the class {name} (`amqp0-9-1.xml`, class {of_class[0].class_id})."]
    lines += HEAD.rstrip().split("\n")
    lines.append(f"ghost use Rattle.std.specs.Prelude.{{{', '.join(prelude)}}};")
    if "table_view" in clauses:
        lines.append("ghost use Rattle.amqp_value.specs.Tables.{table_view};")
    if "no_pairs" in clauses:
        lines.append("ghost use Rattle.amqp_value.specs.Values.{no_pairs};")
    arguments = [row[4] for row in KINDS.values() if re.search(rf"[(∷] ?{row[4]}\b", clauses)]
    if arguments:
        words = ["call"] + arguments
        lines.append(f"ghost use Rattle.amqp_method.specs.Arguments.{{{', '.join(words)}}};")
    if "properties_view" in clauses:
        lines.append("ghost use Rattle.amqp_method.specs.HeaderView.{properties_view};")
        lines.append("ghost use Rattle.amqp_method.specs.MessageView.{message_view};")
        lines.append("ghost use Rattle.amqp_method.specs.Messages.{letter_with};")
    lines.append("ghost use Rattle.amqp_method.specs.MethodRefView.{lent_call};")
    lines.append("ghost use Rattle.amqp_method.specs.MethodView.{method_view};")
    lines.append("ghost use Rattle.amqp_method.specs.Methods.{row};")
    if own:
        kinds = ", ".join(method.kind for method in own)
        lines.append(f"ghost use Rattle.amqp_method.specs.declared.kinds.Kind.TheVariants.{{{kinds}}};")
    calls = [method.snake + "_call" for method in own]
    calls += [method.snake + "_ref_call" for method in own if not method.is_plain()]
    calls += [method.snake + "_view_call" for method in own if not method.is_plain()]
    calls += ["any_call"] if is_plain(of_class) else ["any_call", "any_view_call"]
    lines.append(f"ghost use Rattle.amqp_typed.specs.{camel(name)}.{{{', '.join(calls)}}};")
    lines.append("")
    helpers = sorted(word for word in [row[3] for row in KINDS.values()] + [row[3] + "_at" for row in KINDS.values()] + list(COUNTS.values()) + ["method_of", "own_args"] if re.search(rf"(?<![\w.:]){word}(\(|::<)", code))
    if helpers:
        lines += use_lines("crate::args", helpers)
    views = [row[3] + "_in" for row in KINDS.values()] + ["kind_in"]
    in_payload = sorted(word for word in views if re.search(rf"(?<![\w.:]){word}\(", code))
    bare = [method.kind for method in of_class if method.is_bare()]
    if bare:
        lines.append("use crate::bare::Bare;")
        lines += use_lines("crate::bare_kinds", sorted(bare))
    if any(method.content for method in of_class):
        lines.append("use crate::contents::content_of;")
    traits = ["Typed", "TypedRef", "TypedView"] if own else ["Typed", "TypedView"]
    lines += use_lines("crate::typed", traits)
    if in_payload:
        lines += use_lines("crate::views", in_payload)
    types = ("Arg", "Kind", "Message", "Method", "MethodRef", "OutOfMemory", "Properties")
    types = [word for word in types if re.search(rf"\b{word}\b", code)]
    if types:
        lines += use_lines("amqp_method", types)
    values = [word for word in ("ShortStr", "Table", "TableRef") if re.search(rf"(?<!Arg::)\b{word}\b", code)]
    if values:
        lines += use_lines("amqp_value", values)
    lines.append("use std::alloc::Global;")
    lines.append("use std::fmt;")
    return "\n".join(lines) + "\n\n" + code + "\n"


def is_plain(of_class):
    """Whether all methods of the class are numbers and bits alone, so that its enum has no form of its own in payloads."""
    return all(method.is_plain() for method in of_class)


def any_of_class(name, of_class):
    """The enum of a class, and its form in payloads."""
    plain = is_plain(of_class)
    lines = [f"/// A method of the class {name}.", "#[derive(Clone, Copy)]" if plain else "#[derive(Drop)]", "pub enum AnyMethod {"]
    lines += [f"    {method.name}({method.name})," for method in of_class]
    lines += ["}", "", "impl AnyMethod {"]
    lines += kind_of_class("AnyMethod", "&self", "(any_call self.now)", of_class) + [""]
    lines += ["    /// What a method of the class says.", "    pub fn from_method(method: Method) -> AnyMethod"]
    lines.append(f"        requires {{ (row (method_view method).kind).class ≡ {of_class[0].class_id} }}")
    lines.append(clause("", "any_call result ≡ method_view method"))
    lines += read_of_class("AnyMethod", "from_method", [(method, method.name) for method in of_class]) + [""]
    lines.append("    /// The method with these arguments.")
    lines.append("    pub fn into_method(self, alloc: Global) -> Result<Method, OutOfMemory>")
    lines.append(clause("", "IfOk result (λ m. method_view m ≡ any_call self)"))
    lines += ["    {"] + each_method("AnyMethod", "method.into_method(alloc)", of_class) + ["    }"]
    if plain:
        lines += [""] + view_of_class("AnyMethod", "any_call", "'_", of_class)
    lines += ["}", "", "/// Prints what the struct prints.", "impl fmt::Debug for AnyMethod {"]
    lines.append("    fn fmt<W: fmt::Write>(&self, f: &mut fmt::Formatter<W>) -> fmt::Result {")
    lines += shown_of_class(of_class) + ["    }", "}", ""]
    return lines if plain else lines + any_view_of_class(of_class)


def any_view_of_class(of_class):
    lines = ["/// [`AnyMethod`], as it lies in its payload.", "#[derive(Clone, Copy)]", "pub enum AnyMethodView<'a> {"]
    lines += [f"    {method.name}({method.in_payload()})," for method in of_class]
    lines += ["}", "", "impl<'a> AnyMethodView<'a> {"]
    lines += kind_of_class("AnyMethodView", "self", "(any_view_call self.entry)", of_class) + [""]
    return lines + view_of_class("AnyMethodView", "any_view_call", "'a", of_class) + ["}", ""]


def each_method(enum, value, of_class):
    lines = ["        match self {"]
    for method in of_class:
        lines += arm(f"{enum}::{method.name}(method)", value, "            ")
    return lines + ["        }"]


def shown_of_class(of_class):
    """A body that prints the struct. One without arguments prints its kind, so where all are, no arms are needed."""
    if all(method.is_bare() for method in of_class):
        return ['        write!(f, "{}", self.kind())']
    return each_method("AnyMethod", "fmt::Debug::fmt(method, f)", of_class)


def kind_of_class(enum, receiver, said, of_class):
    lines = [f"    pub fn kind({receiver}) -> Kind", clause("", f"result ≡ {said}.kind"), "    {", "        match self {"]
    for method in of_class:
        lines += arm(f"{enum}::{method.name}(_)", f"Kind::{method.kind}", "            ")
    return lines + ["        }", "    }"]


def view_of_class(enum, call, lifetime, of_class):
    result = enum if lifetime == "'_" else f"{enum}<{lifetime}>"
    lines = ["    /// What a method of the class says.", f"    pub fn from_view(method: MethodRef<{lifetime}>) -> {result}"]
    lines.append(f"        requires {{ (row (lent_call method).kind).class ≡ {of_class[0].class_id} }}")
    lines.append(clause("", f"{call} result ≡ lent_call method.entry"))
    return lines + read_of_class(enum, "from_view", [(method, method.in_payload().split("<")[0]) for method in of_class])


def read_of_class(enum, read, structs):
    """A body that reads the method as the struct of its kind."""
    asked = "kind_in(method)" if read == "from_view" else "method.kind()"
    lines = ["    {", f"        match {asked} {{"]
    for method, struct in structs:
        known = f"{struct}::{KNOWN_READS[read]}(method)"
        lines += arm(f"Kind::{method.kind}", f"{enum}::{method.name}({known})", "            ")
    return lines + ["            _ => unreachable!(),", "        }", "    }"]


def asked_kind(read):
    """What tells the kind: in a payload, that the arguments fit it as well."""
    return "kind_in" if read == "from_view" else "kind"


def use_lines(path, names):
    if len(names) == 1:
        return [f"use {path}::{names[0]};"]
    one = f"use {path}::{{{', '.join(names)}}};"
    if len(one) <= 100:
        return [one]
    return [f"use {path}::{{"] + wrapped("    ", [word + "," for word in names], "", "    ", 99) + ["};"]


def bare_kinds_file(all_methods):
    """The markers of the methods without arguments."""
    of_file = [method for method in all_methods if method.is_bare()]
    lines = ["//! The kinds of the methods without arguments, each as a type. The types have the names of [`Kind`]'s variants."]
    lines += HEAD.rstrip().split("\n")
    lines.append("ghost use Rattle.std.proofs.Common.{refl};")
    lines.append("ghost use Rattle.amqp_method.specs.declared.kinds.Kind.TheVariants as kind;")
    lines += ["", "use crate::bare::BareKind;", "use amqp_method::Kind;", ""]
    for method in of_file:
        lines += [
            f"/// `{method.label}`.",
            "#[derive(Clone, Copy)]",
            f"pub struct {method.kind};",
            "",
            f"impl BareKind for {method.kind} {{",
            f"    ghost KIND = {{ kind.{method.kind} }};",
            "",
            f"    const KIND: Kind = Kind::{method.kind};",
            "",
            "    ghost bare = { refl };",
            "}",
            "",
        ]
    return "\n".join(lines[:-1]) + "\n"


# ---- definitions


def class_spec(name, all_methods):
    of_class = [method for method in all_methods if method.class_name == name]
    own = [method for method in of_class if not method.is_bare()]
    body = []
    for method in own:
        body += spec_of(method, method.name, method.snake + "_call", False)
        if not method.is_plain():
            body += spec_of(method, method.name + "Ref", method.snake + "_ref_call", True)
            body += spec_of(method, method.name + "View", method.snake + "_view_call", True, True)
    body += any_spec_of(of_class)
    text = "\n".join(body)
    lines = [
        f"-- What the structs of the class {name} stand for: each the call of its method, with the fields as arguments in",
        "-- the order of the table.",
    ]
    lines += ["-- " + line[3:] for line in HEAD.rstrip().split("\n")]
    lines.append(f"use Rattle.std.specs.Prelude.{{[]{', ◌∷◌' if own else ''}}}")
    if "table_view" in text:
        lines.append("use Rattle.amqp_value.specs.Lent.{table_ref_view}")
        lines.append("use Rattle.amqp_value.specs.Tables.{table_view}")
    arguments = [row[4] for row in KINDS.values() if re.search(rf"[(∷] ?{row[4]}\b", text)]
    lines.append(f"use Rattle.amqp_method.specs.Arguments.{{{', '.join(['Call', 'call'] + arguments)}}}")
    kinds = ", ".join(method.kind for method in of_class)
    lines.append(f"use Rattle.amqp_method.specs.declared.kinds.Kind.TheVariants.{{{kinds}}}")
    for method in own:
        lines.append(f"use Rattle.amqp_typed.specs.declared.{name}.{method.name}.{{{method.name}}}")
        if not method.is_plain():
            lines.append(f"use Rattle.amqp_typed.specs.declared.{name}.{method.name}Ref.{{{method.name}Ref}}")
            lines.append(f"use Rattle.amqp_typed.specs.declared.{name}.{method.name}View.{{{method.name}View}}")
    for enum, variants in (("AnyMethod", "any"), ("AnyMethodView", "view"))[: 1 if is_plain(of_class) else 2]:
        lines.append(f"use Rattle.amqp_typed.specs.declared.{name}.{enum}.{{{enum}}}")
        lines.append(f"use Rattle.amqp_typed.specs.declared.{name}.{enum}.TheVariants as {variants}")
    return "\n".join(lines) + "\n\n" + text.rstrip() + "\n"


def spec_of(method, struct, call, lent, in_payload=False):
    lines = [f"abbrev pub {call} : {struct} → Call"]
    terms = [field.term(f"m.{field.name}", lent, in_payload) for field in method.fields]
    one = f"{call} m = call {method.kind} ({' '.join(list_words(terms))})"
    if len(one) <= 100:
        return lines + [one, ""]
    words = list_words(terms)
    words[0] = "(" + words[0]
    return lines + [f"{call} m =", f"    call {method.kind}"] + wrapped("    ", words, ")", "    ") + [""]


def any_spec_of(of_class):
    """The call of a method of the class, whichever it is."""
    lines = ["abbrev pub any_call : AnyMethod → Call"]
    for method in of_class:
        of = f"call {method.kind} []" if method.is_bare() else f"{method.snake}_call m"
        lines.append(f"any_call (any.{method.name} m) = {of}")
    if is_plain(of_class):
        return lines + [""]
    lines += ["", "abbrev pub any_view_call : AnyMethodView → Call"]
    for method in of_class:
        words = method.snake + ("_call" if method.is_plain() else "_view_call")
        of = f"call {method.kind} []" if method.is_bare() else f"{words} m"
        lines.append(f"any_view_call (view.{method.name} m) = {of}")
    return lines + [""]


# ---- answers


def steps(fields, suffix):
    """The names of the calls of the helpers, in order, in a proof: those of one helper are counted from the second on."""
    seen, names = {}, []
    for field in fields:
        helper = field.helper + suffix
        seen[helper] = seen.get(helper, 0) + 1
        names.append((helper, f"-{seen[helper]}" if seen[helper] > 1 else ""))
    return names


def lent_answer(method, struct, function, suffix, kind, fit, said):
    """Of which kind each argument is, and that what is read by place is all that the method says."""
    calls = steps(method.fields, suffix)
    word = said[1:].split(" ")[0]
    lines = [
        "use Rattle.std.proofs.Common.{refl}",
        f"use Rattle.amqp_method.specs.{'MethodView' if word == 'method_view' else 'MethodRefView'}.{{{word}}}",
        f"use Rattle.amqp_method.specs.declared.kinds.Kind.TheVariants.{{{method.kind}}}",
        f"use Rattle.amqp_typed.proofs.Places.{{at_place, call_{len(method.fields)}}}",
        f"use Rattle.amqp_typed.proofs.{method.class_name}.{struct}.{function}.Goals as goal",
    ]
    for place, (helper, number) in enumerate(calls):
        goal = f"{helper}-requires{number}"
        lines += ["", f"pub {goal} : goal.{goal}", f"{goal} c = at_place {said} {method.kind} {place} {kind} refl"]
    facts = " ".join(f"c.{helper}{number}.ensures" for helper, number in calls)
    lines += ["", "pub returns : goal.returns", "returns c ="]
    lines += [f"    call_{len(method.fields)} _ _ {kind} {fit} refl", f"    {facts}"]
    return "\n".join(lines) + "\n"


def ref_answer(method, struct):
    """Of a method that is lent."""
    said = "(method_view c.args.method.now)"
    return lent_answer(method, struct, "of_ref", "_at", "c.requires", "c.args.method.now.fit", said)


def view_answer(method, struct):
    """Of a method that lies in its payload."""
    return lent_answer(method, struct, "of_view", "_in", "c.requires.1", "c.requires.0", "(lent_call c.args.method)")


def owned_answer(method):
    """Of which kind each argument is, and that what is taken apart is all that the method says."""
    count = len(method.fields)
    taken = f"c.{COUNTS[count]}-taken.ensures"
    names = steps(method.fields, "")
    lemmas = f"kind_1, kinds_in, made_1" if count == 1 else f"kinds_{count}, kinds_in, made_{count}"
    lines = [
        "use Rattle.std.proofs.Common.{refl, arith}",
        f"use Rattle.amqp_typed.proofs.Places.{{{lemmas}}}",
        f"use Rattle.amqp_method.specs.declared.kinds.Kind.TheVariants.{{{method.kind}}}",
        f"use Rattle.amqp_typed.proofs.{method.class_name}.{method.name}Typed.of_method.Goals as goal",
        "",
        "pub own_args-requires : goal.own_args-requires",
        "own_args-requires c = (omega arith, (c.requires, refl))",
    ]
    kinds = f"kinds_in {method.kind} c.own_args.result _ c.own_args.ensures.fit {taken}"
    for place, (helper, number) in enumerate(names):
        goal = f"{helper}-requires{number}"
        term = f"kind_1 ({kinds})" if count == 1 else f"(kinds_{count} ({kinds})).{place}"
        lines += ["", f"pub {goal} : goal.{goal}", f"{goal} c = {term}"]
    facts = " ".join(f"c.{helper}{number}.ensures" for helper, number in names)
    lines += ["", "pub returns : goal.returns", "returns c ="]
    lines.append(f"    made_{count} _ {method.kind} c.own_args.result c.own_args.ensures.args {taken}")
    lines.append(f"    {facts}")
    return "\n".join(lines) + "\n"


def made_answer(method):
    """That the arguments fit their kind, and that they are those of the struct: both by computing alone."""
    lines = [
        "use Rattle.std.proofs.Common.{refl, arith}",
        f"use Rattle.amqp_typed.proofs.{method.class_name}.{method.name}Typed.into_method.Goals as goal",
        "",
        "pub method_of-requires : goal.method_of-requires",
        "method_of-requires c = (omega arith, refl)",
        "",
        "pub returns : goal.returns",
        "returns c = c.method_of.ensures",
    ]
    return "\n".join(lines) + "\n"


def any_answer(name, enum, read, of_class):
    """That each method is read, being of its kind, and that its struct stands for it."""
    lines = [
        "use Rattle.std.proofs.Common.{sym, ◌∙◌}",
        f"use Rattle.amqp_typed.proofs.{name}.{enum}.{read}.Goals as goal",
    ]
    asked, word = asked_kind(read), KNOWN_READS[read]
    kind = "kind_in.ensures.kind" if asked == "kind_in" else "kind.ensures"
    for place, method in enumerate(of_class):
        arm = f"in-{method.kind}"
        step = f"-{arm}" if place else ""
        is_kind = f"sym c.{kind} ∙ c.{arm}.is"
        needed = f"(c.kind_in.ensures.fit, {is_kind})" if asked == "kind_in" else is_kind
        lines += ["", f"pub {word}-requires{step} : goal.{word}-requires{step}", f"{word}-requires{step} c = {needed}"]
        lines += ["", f"pub returns-{arm} : goal.returns-{arm}", f"returns-{arm} c = c.{word}{step}.ensures"]
    return "\n".join(lines) + "\n"


def message_answer(method):
    """That the method is one that a content follows, and that the message has it."""
    call = f"({method.snake}_call c.args.self)"
    lines = [
        "use Rattle.std.proofs.Common.{refl}",
        f"use Rattle.amqp_typed.specs.{camel(method.class_name)}.{{{method.snake}_call}}",
        "use Rattle.amqp_typed.proofs.Carrying.{carries}",
        f"use Rattle.amqp_typed.proofs.{method.class_name}.{method.name}.message.Goals as goal",
        "",
        "pub content_of-requires : goal.content_of-requires",
        f"content_of-requires c = carries _ {call} c.into_method.ensures refl",
        "",
        "pub returns : goal.returns",
        f"returns c = c.content_of.ensures {call} c.into_method.ensures",
    ]
    return "\n".join(lines) + "\n"


def answers(all_methods):
    found = {}
    for name in CLASSES:
        of_class = [method for method in all_methods if method.class_name == name]
        in_payload = "AnyMethod" if is_plain(of_class) else "AnyMethodView"
        for enum, read in (("AnyMethod", "from_method"), (in_payload, "from_view")):
            found[CRATE / "proofs" / name / enum / read / "Answers.antt"] = any_answer(name, enum, read, of_class)
    for method in all_methods:
        if not method.fields:
            continue
        folder = CRATE / "proofs" / method.class_name
        found[folder / (method.name + "Typed") / "into_method" / "Answers.antt"] = made_answer(method)
        if method.content:
            found[folder / method.name / "message" / "Answers.antt"] = message_answer(method)
        if method.is_plain():
            found[folder / (method.name + "TypedRef") / "of_ref" / "Answers.antt"] = ref_answer(method, method.name + "TypedRef")
            found[folder / (method.name + "TypedView") / "of_view" / "Answers.antt"] = view_answer(method, method.name + "TypedView")
            continue
        lent, view = method.name + "RefTypedRef", method.name + "ViewTypedView"
        found[folder / lent / "of_ref" / "Answers.antt"] = ref_answer(method, lent)
        found[folder / view / "of_view" / "Answers.antt"] = view_answer(method, view)
        found[folder / (method.name + "Typed") / "of_method" / "Answers.antt"] = owned_answer(method)
    return found


# ---- every method


def any_file(all_methods):
    lines = ["//! Every method, by its class."]
    lines += HEAD.rstrip().split("\n")
    lines.append("ghost use Rattle.std.specs.Prelude.{◌≡◌, IfOk};")
    lines.append("ghost use Rattle.amqp_method.specs.MethodRefView.{lent_call};")
    lines.append("ghost use Rattle.amqp_method.specs.MethodView.{method_view};")
    lines.append("ghost use Rattle.amqp_typed.specs.AnyMethod.{any_call, any_view_call};")
    lines += ["", f"use crate::{{{', '.join(sorted(CLASSES))}}};"]
    lines += use_lines("amqp_method", ["Kind", "Method", "MethodRef", "OutOfMemory"])
    lines += ["use std::alloc::Global;", "use std::fmt;", ""]
    lines += ["/// A method of any kind, by its class.", "#[derive(Drop)]", "pub enum AnyMethod {"]
    lines += [f"    {camel(name)}({name}::AnyMethod)," for name in CLASSES]
    lines += ["}", "", "impl AnyMethod {", "    pub fn kind(&self) -> Kind"]
    lines.append(clause("", "result ≡ (any_call self.now).kind"))
    lines += each_class("AnyMethod", "method.kind()") + [""]
    lines += ["    /// What a method says.", "    pub fn from_method(method: Method) -> AnyMethod"]
    lines.append(clause("", "any_call result ≡ method_view method"))
    lines += by_class("AnyMethod", "method.kind()", "from_method", all_methods) + [""]
    lines.append("    /// The method with these arguments.")
    lines.append("    pub fn into_method(self, alloc: Global) -> Result<Method, OutOfMemory>")
    lines.append(clause("", "IfOk result (λ m. method_view m ≡ any_call self)"))
    lines += each_class("AnyMethod", "method.into_method(alloc)") + ["}", ""]
    lines += debug_of_any()
    lines += ["/// [`AnyMethod`], as it lies in its payload.", "#[derive(Clone, Copy)]", "pub enum AnyMethodView<'a> {"]
    lines += [f"    {camel(name)}({name}::{in_payload(name, all_methods)})," for name in CLASSES]
    lines += ["}", "", "impl<'a> AnyMethodView<'a> {", "    pub fn kind(self) -> Kind"]
    lines.append(clause("", "result ≡ (any_view_call self.entry).kind"))
    lines += each_class("AnyMethodView", "method.kind()") + [""]
    lines += ["    /// What a method says.", "    pub fn from_view(method: MethodRef<'a>) -> AnyMethodView<'a>"]
    lines.append(clause("", "any_view_call result ≡ lent_call method.entry"))
    lines += by_class("AnyMethodView", "method", "from_view", all_methods)
    return "\n".join(lines + ["}"]) + "\n"


def in_payload(name, all_methods):
    """The enum of a class that is read from a payload."""
    plain = is_plain([method for method in all_methods if method.class_name == name])
    return "AnyMethod" if plain else "AnyMethodView<'a>"


def each_class(enum, value):
    """A body that asks the method of its class."""
    lines = ["    {", "        match self {"]
    for name in CLASSES:
        lines += arm(f"{enum}::{camel(name)}(method)", value, "            ")
    return lines + ["        }", "    }"]


def by_class(enum, kind, read, all_methods):
    """A body that reads the method by its class."""
    numbers = {method.class_name: method.class_id for method in all_methods}
    lines = ["    {", f"        match {kind}.class_id() {{"]
    for name in CLASSES:
        of_class = "AnyMethod" if read == "from_method" else in_payload(name, all_methods).split("<")[0]
        pattern = "_" if name == CLASSES[-1] else numbers[name]
        lines += arm(pattern, f"{enum}::{camel(name)}({name}::{of_class}::{read}(method))", "            ")
    return lines + ["        }", "    }"]


def debug_of_any():
    lines = ["fn write_struct<W: fmt::Write>(f: &mut fmt::Formatter<W>, method: &AnyMethod) -> fmt::Result {", "    match method {"]
    for name in CLASSES:
        lines += arm(f"AnyMethod::{camel(name)}(method)", "fmt::Debug::fmt(method, f)", "        ")
    lines += ["    }", "}", "", "/// Prints the kind, and in parentheses what the struct prints.", "impl fmt::Debug for AnyMethod {"]
    lines.append("    fn fmt<W: fmt::Write>(&self, f: &mut fmt::Formatter<W>) -> fmt::Result {")
    lines += ["        let kind = self.kind();", '        write!(f, "{kind:?}(")?;', "        write_struct(f, self)?;"]
    return lines + ['        f.write_str(")")', "    }", "}", ""]


def arm(pattern, value, indent):
    one = f"{indent}{pattern} => {value},"
    if len(one) <= 100:
        return [one]
    return [f"{indent}{pattern} => {{", f"{indent}    {value}", f"{indent}}}"]


def any_spec(all_methods):
    lines = ["-- What a method of any kind stands for, and one that lies in its payload."]
    lines += ["-- " + line[3:] for line in HEAD.rstrip().split("\n")]
    lines.append("use Rattle.amqp_method.specs.Arguments.{Call}")
    for enum, variants in (("AnyMethod", "any"), ("AnyMethodView", "view")):
        lines.append(f"use Rattle.amqp_typed.specs.declared.any_method.{enum}.{{{enum}}}")
        lines.append(f"use Rattle.amqp_typed.specs.declared.any_method.{enum}.TheVariants as {variants}")
    lines += [f"use Rattle.amqp_typed.specs.{camel(name)} as {name}" for name in CLASSES]
    lines += ["", "abbrev pub any_call : AnyMethod → Call"]
    lines += [f"any_call (any.{camel(name)} m) = {name}.any_call m" for name in CLASSES]
    lines += ["", "abbrev pub any_view_call : AnyMethodView → Call"]
    for name in CLASSES:
        call = "any_call" if in_payload(name, all_methods) == "AnyMethod" else "any_view_call"
        lines.append(f"any_view_call (view.{camel(name)} m) = {name}.{call} m")
    return "\n".join(lines) + "\n"


# ---- files


def files():
    all_methods = methods()
    found = answers(all_methods)
    for name in CLASSES:
        found[CRATE / "src" / f"{name}.rt"] = class_file(name, all_methods)
        found[CRATE / "specs" / f"{camel(name)}.antt"] = class_spec(name, all_methods)
    found[CRATE / "src" / "bare_kinds.rt"] = bare_kinds_file(all_methods)
    found[CRATE / "src" / "any_method.rt"] = any_file(all_methods)
    found[CRATE / "specs" / "AnyMethod.antt"] = any_spec(all_methods)
    return found


def main():
    check = sys.argv[1:] == ["--check"]
    differ = [path for path, text in files().items() if not path.exists() or path.read_text() != text]
    for path in differ:
        if check:
            print(f"{path.relative_to(ROOT)} isn't what tools/typed_methods.py writes")
        else:
            path.parent.mkdir(parents=True, exist_ok=True)
            path.write_text(files()[path])
    return 1 if check and differ else 0


if __name__ == "__main__":
    sys.exit(main())
