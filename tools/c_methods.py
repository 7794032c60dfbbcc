#!/usr/bin/env python3
"""Writes what the C library restates of docs/PROTOCOL.md. From the table of methods, embed/c/meadowtray_methods.h:
the kinds, and for each method that has fields a structure with them by name, a function that fills it from a method
that was read, and one that writes it. From that table and the one of properties, embed/c/names.c: the names of all.

    tools/c_methods.py            writes the files
    tools/c_methods.py --check    writes nothing, names each file that would change, and answers 1 if there is one
"""
import pathlib
import sys

sys.dont_write_bytecode = True
from typed_methods import methods

ROOT = pathlib.Path(__file__).resolve().parent.parent
PLACE = ROOT / "embed" / "c"

HEAD = """/* The methods of AMQP 0-9-1, by name. Included by meadowtray.h.
 *
 * Written by tools/c_methods.py from the table of methods in docs/PROTOCOL.md: change those and run it again. */
#ifndef MEADOWTRAY_METHODS_H
#define MEADOWTRAY_METHODS_H

#ifdef __cplusplus
extern "C" {
#endif

/* The kind of a method: its class id times 65536, plus its method id. */
enum {
%s
};

/* For each method with fields follow a structure with them, a function that fills it from a method that was read, and
 * one that writes such a method; for one without fields, this last alone. The first answers false, and writes
 * nothing, where the method is of another kind; the second does what mt_method_write does. A table without octets is
 * one of no pairs. */
"""

NAMES = """/* The names of methods, of their fields, and of properties.
 *
 * Written by tools/c_methods.py from the tables in docs/PROTOCOL.md: change those and run it again. */
#include "meadowtray.h"

#include <string.h>

static const struct {
	uint32_t kind;
	const char *name;
	const char *fields[MT_MOST_FIELDS];
} METHODS[] = {
%s};

static const char *const PROPERTIES[MT_PROPERTIES] = {
%s};

enum { KINDS = sizeof METHODS / sizeof METHODS[0] };

const char *mt_method_name(uint32_t kind)
{
	for (size_t i = 0; i < KINDS; ++i)
		if (METHODS[i].kind == kind)
			return METHODS[i].name;
	return NULL;
}

uint32_t mt_method_kind(const char *name)
{
	for (size_t i = 0; i < KINDS && name; ++i)
		if (strcmp(METHODS[i].name, name) == 0)
			return METHODS[i].kind;
	return 0;
}

const char *mt_field_name(uint32_t kind, size_t place)
{
	for (size_t i = 0; i < KINDS && place < MT_MOST_FIELDS; ++i)
		if (METHODS[i].kind == kind)
			return METHODS[i].fields[place];
	return NULL;
}

const mt_value *mt_method_field(const mt_method *method, const char *name)
{
	if (!method || !name)
		return NULL;
	for (size_t place = 0; place < method->count && place < MT_MOST_FIELDS; ++place) {
		const char *held = mt_field_name(method->kind, place);

		if (held && strcmp(held, name) == 0)
			return &method->fields[place];
	}
	return NULL;
}

const char *mt_property_name(size_t place)
{
	return place < MT_PROPERTIES ? PROPERTIES[place] : NULL;
}
"""

FOOT = """
#ifdef __cplusplus
}
#endif

#endif
"""

TYPES = {
    "bit": "bool",
    "octet": "uint8_t",
    "short": "uint16_t",
    "long": "uint32_t",
    "long-long": "uint64_t",
    "short-string": "mt_octets",
    "long-string": "mt_octets",
    "table": "mt_octets",
}


def words(label):
    return label.replace(".", "_").replace("-", "_")


def constant(method):
    return "MT_" + words(method.label).upper()


def read(field, place):
    value = f"method->fields[{place}]"
    kind = TYPES[field.kind]
    if kind == "mt_octets":
        return f"mt_octets_of(&{value})"
    if kind == "bool":
        return f"{value}.number != 0"
    return f"({kind}){value}.number"


def value(field):
    held = f"fields->{words(field.label)}"
    if field.kind == "table":
        return f"mt_table_value({held})"
    made = "mt_octets_value" if TYPES[field.kind] == "mt_octets" else "mt_number_value"
    return f"{made}(MT_{words(field.kind).upper()}, {held})"


def writer(method):
    name = words(method.label)
    room = "uint8_t *room, size_t capacity, mt_written *written"
    if not method.fields:
        return (
            f"\n/* {method.label}, class {method.class_id}, method {method.id} */\n"
            f"static inline uint32_t mt_write_{name}({room})\n{{\n"
            f"\treturn mt_method_write({constant(method)}, NULL, 0, room, capacity, written);\n}}\n"
        )
    count = len(method.fields)
    values = "".join(f"\tvalues[{place}] = {value(field)};\n" for place, field in enumerate(method.fields))
    return (
        f"\nstatic inline uint32_t mt_write_{name}(const mt_{name} *fields,\n\t\t{room})\n{{\n"
        f"\tmt_value values[{count}];\n\n{values}"
        f"\treturn mt_method_write({constant(method)}, values, {count}, room, capacity, written);\n}}\n"
    )


def structure(method):
    name = "mt_" + words(method.label)
    fields = "".join(f"\t{TYPES[field.kind]} {words(field.label)};\n" for field in method.fields)
    places = enumerate(method.fields)
    reads = "".join(f"\tfields->{words(field.label)} = {read(field, place)};\n" for place, field in places)
    return (
        f"\n/* {method.label}, class {method.class_id}, method {method.id} */\n"
        f"typedef struct {name} {{\n{fields}}} {name};\n\n"
        f"static inline bool mt_as_{words(method.label)}(const mt_method *method, {name} *fields)\n{{\n"
        f"\tif (method->kind != {constant(method)})\n\t\treturn false;\n{reads}\treturn true;\n}}\n"
    )


def header():
    table = methods()
    kinds = ",\n".join(f"\t{constant(m)} = {int(m.class_id) * 65536 + int(m.id)}" for m in table)
    return HEAD % kinds + "".join((structure(m) if m.fields else "") + writer(m) for m in table) + FOOT


def row(method):
    fields = ", ".join(f'"{field.label}"' for field in method.fields) or "NULL"
    return f'\t{{{constant(method)}, "{method.label}",\n\t {{{fields}}}}},\n'


def names():
    text = (ROOT / "docs" / "PROTOCOL.md").read_text()
    rows = text.split("| Bit | Property | Field | Kind |\n|---|---|---|---|\n")[1].split("\n\n")[0].split("\n")
    properties = [line.split("|")[2].strip() for line in rows]
    return NAMES % ("".join(row(m) for m in methods()), "".join(f'\t"{name}",\n' for name in properties))


def main():
    files = {PLACE / "meadowtray_methods.h": header(), PLACE / "names.c": names()}
    if sys.argv[1:] != ["--check"]:
        for path, text in files.items():
            path.write_text(text)
        return
    changed = [path for path, text in files.items() if not path.exists() or path.read_text() != text]
    for path in changed:
        print(f"{path.relative_to(ROOT)} isn't what tools/c_methods.py writes")
    sys.exit(1 if changed else 0)


if __name__ == "__main__":
    main()
