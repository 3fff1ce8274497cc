"""What tools/calls writes for C, Python and Rust: the numbers that stand for words and attributes, and one function for each message."""

from lib.calls_wire import worded
from lib.model import CODES

# The types of C's arguments, by the names of their kinds; any other is a number.
TYPES = {"handle": "uint32_t", "format": "enum wk_format", "stat": "enum wk_stat", "transition": "enum wk_transition"}
ATTRIBUTES = {name: f"enum wk_{name}" for name in ("element", "context", "port", "pipe")}
LONGEST = 140


def snake(name):
    """Returns a name of the code in small letters, as C's have it."""
    return "".join(f"_{letter.lower()}" if letter.isupper() and place else letter.lower() for place, letter in enumerate(name))


def enum_of(name, words, first=0):
    """Returns an enum whose words stand for numbers from the first on."""
    own = [f"WK_{name.upper()}_{word.upper()} = {number}" for number, word in enumerate(words, first)]
    return f"enum wk_{name} {{\n    " + ",\n    ".join(own) + "\n};\n"


def enums_h(table):
    """Returns the codes, and an enum for each kind of arguments whose numbers stand for words or for attributes."""
    codes = [f"WK_{snake(word).upper()} = {number}" for number, word in enumerate(CODES)] + ["WK_NOT_MADE = 255"]
    text = "\nenum wk_code {\n    " + ",\n    ".join(codes) + "\n};\n"
    for kind, names in worded(table):
        text += "\n" + enum_of(kind.name, [snake(name) for name in names])
    return text + "\n"


def argument(name, kind):
    """Returns an argument of C's function, and how it is put among the bits."""
    if kind == "values":
        return f"const int64_t {name}[4]", [f"(uint64_t){name}[{place}]" for place in range(4)]
    of = TYPES.get(kind) or ATTRIBUTES.get(kind) or "int64_t"
    return f"{of} {name}", [f"(uint64_t){name}"]


def wrapped(head, own):
    """Returns the head of a function, in lines that are read well."""
    line = f"static inline wk_told {head}({', '.join(own)})"
    if len(line) <= LONGEST:
        return line
    return f"static inline wk_told {head}(\n    " + ", ".join(own) + "\n)"


def wrapper(message):
    """Returns the function of a message: its arguments in the order of the table, after the machine and the client."""
    own, bits = ["wk_machine *machine", "uint8_t client"], []
    for name, kind in message.arguments:
        told, put = argument(name, kind)
        own.append(told)
        bits += put
    return (
        f"/* {message.texts['does']} */\n"
        f"{wrapped('wk_' + message.own, own)} {{\n"
        f"    const uint64_t bits[] = {{{', '.join(bits) or '0'}}};\n"
        f"    return wk_call(machine, client, {message.number}, bits, {len(bits)});\n}}\n"
    )


def messages_of(table):
    """Returns the messages that have a function: all but those that paint, and those that begin a frame or bring a write buffer, which are
    exports of their own."""
    return [message for message in table.messages if message.part not in ("", "begin") and message.brings is None]


def wrappers_h(table):
    """Returns C's functions."""
    return "\n" + "\n".join(wrapper(message) for message in messages_of(table)) + "\n"


def python_enum(name, words):
    """Returns an enum of Python."""
    own = "\n".join(f"    {word} = {number}" for word, number in words)
    return f"\n\nclass {name}(IntEnum):\n{own}\n"


def python_words(table):
    """Returns the codes and the enums for Python."""
    codes = [(snake(word).upper(), number) for number, word in enumerate(CODES)] + [("NOT_MADE", 255)]
    text = python_enum("Code", codes)
    for kind, names in worded(table):
        text += python_enum(kind.name.capitalize(), [(snake(name).upper(), number) for number, name in enumerate(names)])
    return text + "\n"


def python_methods(table):
    """Returns a method of Python for each message."""
    text = ""
    for message in messages_of(table):
        names = "".join(f", {name}" for name, _ in message.arguments)
        put = "".join(f", *_four({name})" if kind == "values" else f", {name}" for name, kind in message.arguments)
        text += f"\n    def {message.own}(self, client{names}):\n        \"\"\"{message.texts['does']}\"\"\"\n"
        text += f"        return self.call(client, {message.number}{put})\n"
    return text + "\n"


RUST = {"handle": "u32", "values": "[i64; 4]"}


def rust_enum(name, words, says):
    """Returns an enum of Rust."""
    own = "\n".join(f"    {word} = {number}," for number, word in enumerate(words))
    return f"\n/// {says}\n#[derive(Clone, Copy, Debug, PartialEq, Eq)]\n#[repr(u8)]\npub enum {name} {{\n{own}\n}}\n"


def rust_messages(table):
    """Returns a method of Rust for each message, with the enums of their arguments."""
    own = {kind.name for kind, _ in worded(table)}
    text = "//! The calls of a machine by their names. tools/calls writes this file.\n\nuse crate::{Machine, Refused};\n"
    for kind, names in worded(table):
        article = "an" if kind.name[0] in "aeiou" else "a"
        says = f"The attributes of {article} {kind.name}, by their numbers." if kind.is_attribute else "What it may be, by its number."
        text += rust_enum(kind.name.capitalize(), names, says)
    text += "\nimpl Machine {\n"
    for place, message in enumerate(messages_of(table)):
        arguments = ""
        put = []
        for name, kind in message.arguments:
            arguments += f", {name}: {kind.capitalize() if kind in own else RUST.get(kind, 'i64')}"
            put += [f"{name}[{n}] as u64" for n in range(4)] if kind == "values" else [f"{name} as u64"]
        text += "\n" * bool(place) + f"    /// {message.texts['does']}\n"
        text += f"    pub fn {message.own}(&mut self, client: u8{arguments}) -> Result<u32, Refused> {{\n"
        text += f"        self.call(client, {message.number}, &[{', '.join(put)}])\n    }}\n"
    return text + "}\n"
