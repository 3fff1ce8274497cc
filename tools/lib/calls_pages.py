"""What tools/calls writes of the tools and of the documents."""

from lib import limits
from lib.calls_lower import WHOLE
from lib.calls_wire import ends_of, kinds, worded

# The letter of an argument in a line, where it is not the first of its name.
LETTERS = {"width": "W", "height": "H", "format": "F", "buffers": "B", "depth": "D", "source": "x", "pipe": "l", "index": "N", "on": "N",
           "attr": "ATTRIBUTE", "value": "v ..", "transition": "T", "paint": "P"}
OBJECTS = {"pipe": "pipeline"}
# The constants that ends of ranges are, as the documents tell them.
ENDS = {"MOST_SIDE": limits.MOST_SIDE, "MOST_COORDINATE": limits.MOST_PLACE}
LINE = "\n"


def form_kinds(call, table):
    """Returns the kinds of the words of a line, as the grammar has them."""
    kinds = []
    for name, kind in call.arguments:
        if table.kinds[kind].is_attribute:
            sets = any(other == "values" for _, other in call.arguments)
            kinds.append(f"{'set' if sets else 'get'} {kind}")
        elif kind not in ("values", "canvas", "job") and name != "index":
            kinds.append(kind)
    return kinds


def entries(table, makes):
    """Returns the lines of a dictionary of verbs."""
    rows = [call for call in table.calls + table.lines if call.is_line and call.is_creation == makes]
    return "".join(f"    {call.word!r}: {form_kinds(call, table)!r},\n".replace("'", '"') for call in rows)


def verbs_py(table):
    """Returns lib/verbs.py: the words of each verb and attribute."""
    objects = {}
    for attribute in table.attributes:
        value = int(attribute.value) if attribute.value.isdigit() else attribute.value
        objects.setdefault(attribute.object, {})[attribute.word] = value
    attributes = "".join(f"    {name!r}: {{\n{''.join(f'        {word!r}: {value!r},' + LINE for word, value in own.items())}    }},\n"
                         for name, own in objects.items()).replace("'", '"')
    kinds = {name: kind.words for name, kind in table.kinds.items() if len(kind.words) > 1}
    words = "".join(f"    {name!r}: ({', '.join(map(repr, own))}),\n" for name, own in kinds.items()).replace("'", '"')
    return f'''"""The words of scripts: verbs with what stands after them, and attributes. {WHOLE}"""

# The attributes of each kind of object, with what stands after them: so many numbers, or a word of this kind.
ATTRIBUTES = {{
{attributes}}}
WORDS = {{
{words}}}
# What stands after each verb. `set X` is an attribute of X with its value, `get X` one with the number of a component.
VERBS = {{
{entries(table, False)}}}
CREATIONS = {{
{entries(table, True)}}}
'''


def forms(call, table):
    """Returns the forms of a line in code, one for each word of a `stat`."""
    words = [""]
    for name, kind in call.arguments:
        if kind in ("canvas", "job"):
            continue
        shown = table.kinds[kind].words if kind == "stat" else [LETTERS.get(name, name[0])]
        words = [f"{word} {letter}" for word in words for letter in shown]
    head = ("0" if call.word == "tick" else "C") + (" name = " if call.is_creation else " ")
    return ", ".join(f"`{head}{call.word}{word}`" for word in words)


def lines_md(table):
    """Returns the table of event lines of docs/formats.md."""
    rows = [f"| {forms(call, table)} | {call.texts['line']} |\n" for call in table.calls + table.lines if call.is_line]
    return "\n| Event line | What it says |\n|---|---|\n" + "".join(rows) + "\n"


def attributes_md(table):
    """Returns the table of attributes of docs/formats.md."""
    rows = {}
    for attribute in table.attributes:
        rows.setdefault((attribute.object, attribute.says), []).append(f"`{attribute.word}`")
    told = "".join(f"| {OBJECTS.get(name, name)} | {', '.join(words)} | {says} |\n" for (name, says), words in rows.items())
    return "\n| Of | Attribute | What it is set to |\n|---|---|---|\n" + told + "\n"


def messages_md(table):
    """Returns the table of messages of docs/formats.md."""
    rows = ""
    for message in table.messages:
        own = [f"`{name}` {'four numbers' if kind == 'values' else kind}" for name, kind in message.arguments if kind != "canvas"]
        rows += f"| {message.number} | {message.name} | {', '.join(own)}{' ' * bool(own)}|\n"
    return "\n| Number | Message | Arguments |\n|---|---|---|\n" + rows + "\n"


def end_of(end):
    """Returns the number that an end of a range is."""
    amount = end.lstrip("-")
    number = ENDS.get(amount) or int(amount)
    return -number if end[0] == "-" else number


def words_of(table):
    """Returns the words of scripts that numbers of messages stand for, in the order of the numbers, by the names of their kinds."""
    attributes = {name: sorted(table.attributes_of(name), key=lambda own: own.number) for name in table.kinds}
    return {kind.name: [own.word for own in attributes[kind.name]] or kind.words for kind, _ in worded(table)}


def kinds_md(table):
    """Returns the table of the kinds of arguments of docs/formats.md."""
    words = words_of(table)
    rows = ""
    for kind in kinds(table):
        ends = ends_of(kind, table)
        told = ", ".join(f"{place} `{word}`" for place, word in enumerate(words.get(kind.name, [])))
        rows += f"| {kind.name} | {told or (f'{end_of(ends[0]):,} to {end_of(ends[1]):,}' if ends else 'any')} |\n"
    return "\n| Kind | What it may be |\n|---|---|\n" + rows + "\n"
