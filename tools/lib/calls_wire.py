"""What tools/calls writes of wf_wire: the messages, of which kind their arguments are, and what they ask for."""

from lib.calls_lower import WHOLE, equation, used

# Where the types of arguments stand, in the code and in the definitions.
TYPES = {
    "Format": ("wf_pixel", "Rattle.wf_pixel.specs.declared.Format"),
    "StatWord": ("wf_calls", "Rattle.wf_calls.specs.declared.call.StatWord"),
    "Transition": ("wf_calls", "Rattle.wf_calls.specs.declared.display.Transition"),
    "ElementAttr": ("wf_scene", "Rattle.wf_scene.specs.declared.attributes.ElementAttr"),
    "ContextAttr": ("wf_scene", "Rattle.wf_scene.specs.declared.attributes.ContextAttr"),
    "PortAttr": ("wf_calls", "Rattle.wf_calls.specs.declared.display.PortAttr"),
    "PipeAttr": ("wf_calls", "Rattle.wf_calls.specs.declared.display.PipeAttr"),
}


def kinds_of(message):
    """Returns the kinds of the numbers of a message, in order: four where one argument has four."""
    own = []
    for _, kind in message.arguments:
        own += {"values": ["number"] * 4, "canvas": []}.get(kind, [kind])
    return own


def kinds(table):
    """Returns the kinds of the numbers of messages, in the order of the table."""
    there = {name for message in table.messages for name in kinds_of(message)}
    return [kind for kind in table.kinds.values() if kind.name in there]


def worded(table):
    """Returns those whose numbers stand for words or for attributes, each with the names of these, in the order of the numbers."""
    found = []
    for kind in kinds(table):
        if kind.is_attribute:
            found.append((kind, [attribute.name for attribute in sorted(table.attributes_of(kind.name), key=lambda own: own.number)]))
        elif len(kind.words) > 1:
            found.append((kind, kind.names))
    return found


def ends_of(kind, table):
    """Returns the least and the most number of a kind, or none where it may be any."""
    counts = {kind.name: len(names) for kind, names in worded(table)}
    return ("0", str(counts[kind.name] - 1)) if kind.name in counts else kind.range


def code_of(end):
    """Returns an end of a range in the code: a number, or a constant."""
    return end if end.lstrip("-").isdigit() else f"{'-' if end[0] == '-' else ''}i64::from({end.lstrip('-')})"


def plain_of(end):
    """Returns an end of a range in the definitions."""
    amount = end.lstrip("-")
    if end[0] != "-":
        return f"pos {amount}"
    return f"negsuc {int(amount) - 1}" if amount.isdigit() else f"negsuc ({amount} - 1)"


def constants(table):
    """Returns the constants that ends of ranges are."""
    ends = [end.lstrip("-") for kind in kinds(table) for end in ends_of(kind, table) or ()]
    return sorted({end for end in ends if not end.isdigit()})


def kind_rt(table):
    """Returns kind.rt: the kinds of arguments, and the range of each."""
    own = "".join(f"{kind.variant}," for kind in kinds(table))
    arms = ""
    for kind in kinds(table):
        ends = ends_of(kind, table)
        least, most = map(code_of, ends) if ends else ("i64::MIN", "i64::MAX")
        arms += f"Kind::{kind.variant} => ({least}, {most}),"
    return f"""//! The kinds of the arguments of messages, and the range of each. {WHOLE}

ghost use Rattle.std.specs.Prelude.{{◌≡◌}};
ghost use Rattle.wf_wire.specs.Kinds.{{range_of}};

use wf_pixel::{{{', '.join(constants(table))}}};

/// What an argument is.
#[derive(Clone, Copy)]
pub(crate) enum Kind {{ {own} }}

/// Returns the least and the most that an argument of `kind` may be.
pub(crate) fn range_of(kind: Kind) -> (i64, i64)
    ensures {{ result ≡ range_of kind }}
{{
    match kind {{ {arms} }}
}}
"""


def kinds_antt(table):
    """Returns Kinds.antt: the range of each kind of arguments."""
    lines = ""
    for kind in kinds(table):
        ends = ends_of(kind, table)
        least, most = map(plain_of, ends) if ends else ("negsuc (2 ^ 63 - 1)", "pos (2 ^ 63 - 1)")
        lines += f"range_of kind.{kind.variant} = ({least}, {most})\n"
    return f"""-- The kinds of the arguments of messages, and the range of each. {WHOLE}
use Rattle.std.specs.Prelude.{{ℤ, pos, negsuc, ◌-◌, ◌^◌}}
use Rattle.wf_pixel.specs.declared.TheConstants.{{{', '.join(constants(table))}}}
use Rattle.wf_wire.specs.declared.kind.Kind.{{Kind}}
use Rattle.wf_wire.specs.declared.kind.Kind.TheVariants as kind

-- the least and the most that an argument of a kind may be
abbrev pub range_of : Kind → ℤ × ℤ
{lines}"""


def form_rt(table):
    """Returns form.rt: the messages by their numbers, and the kinds of the arguments of each."""
    names = [message.name for message in table.messages]
    arms = {}
    for message in table.messages:
        arms.setdefault(", ".join(f"Kind::{table.kinds[kind].variant}" for kind in kinds_of(message)), []).append(f"Form::{message.name}")
    told = "".join(f"{' | '.join(forms)} => &[{own}]," for own, forms in arms.items())
    most = max(len(kinds_of(message)) for message in table.messages)
    return f"""//! The messages by their numbers, and the kinds of the arguments of each. {WHOLE}

ghost use Rattle.std.specs.Prelude.{{◌≡◌, ◌≤◌, length}};
ghost use Rattle.wf_wire.specs.Forms.{{kinds_of}};

use crate::kind::Kind;

/// Which message it is.
#[derive(Clone, Copy)]
pub(crate) enum Form {{ {', '.join(names)} }}

/// All messages, in the order of their numbers, which count from 1.
pub(crate) const FORMS: [Form; {len(names)}] = [{', '.join(f'Form::{name}' for name in names)}];

/// The most arguments of a message.
pub(crate) const MOST_ARGUMENTS: usize = {most};

/// Returns the kinds of the arguments of a message of `form`, in order.
pub(crate) fn kinds_of(form: Form) -> &'static [Kind]
    ensures kinds {{ result.now ≡ kinds_of form }}
    ensures few {{ length result.now ≤ MOST_ARGUMENTS }}
{{
    match form {{ {told} }}
}}
"""


def forms_antt(table):
    """Returns Forms.antt: the messages by their numbers, and the kinds of the arguments of each."""
    names = " ∷ ".join(f"form.{message.name}" for message in table.messages)
    lines = ""
    for message in table.messages:
        own = "".join(f"kind.{table.kinds[kind].variant} ∷ " for kind in kinds_of(message))
        lines += equation(f"kinds_of form.{message.name}", f"{own}[]")
    return f"""-- The messages by their numbers, and the kinds of the arguments of each. {WHOLE}
use Rattle.std.specs.Prelude.{{List, [], ◌∷◌}}
use Rattle.wf_wire.specs.declared.form.Form.{{Form}}
use Rattle.wf_wire.specs.declared.form.Form.TheVariants as form
use Rattle.wf_wire.specs.declared.kind.Kind.{{Kind}}
use Rattle.wf_wire.specs.declared.kind.Kind.TheVariants as kind

-- all messages, in the order of their numbers, which count from 1
abbrev pub forms : List Form
forms = {wrapped(names)} ∷ []

-- the kinds of a message's arguments, in order
abbrev pub kinds_of : Form → List Kind
{lines}"""


def wrapped(text):
    """Returns a long list of a definition on lines of its own."""
    lines, line = [], ""
    for word in text.split(" ∷ "):
        if len(line) + len(word) > 115:
            lines.append(line)
            line = ""
        line += f" ∷ {word}" if line or lines else word
    return "\n    ".join(part.strip() for part in [*lines, line])


def words_rt(table):
    """Returns words.rt: what a number stands for, where it is the number of a word or of an attribute."""
    own = worded(table)
    told = ""
    for kind, names in own:
        told += f"""
/// Returns the {kind.type} of the number at a place of `bits`.
pub(crate) fn {kind.name}_at(bits: &[u64], place: usize) -> {kind.type}
    ensures {{ result ≡ {kind.name}_at bits.now place }}
{{
    let all = [{', '.join(f'{kind.type}::{name}' for name in names)}];
    match all.get(bit_at(bits, place) as usize) {{
        Some(found) => *found,
        None => {kind.type}::{names[0]},
    }}
}}
"""
    crates = {}
    for kind, _ in own:
        crates.setdefault(TYPES[kind.type][0], []).append(kind.type)
    code = "".join(f"use {name}::{{{', '.join(sorted(types))}}};\n" for name, types in sorted(crates.items()))
    return f"""//! What an argument stands for that is the number of a word or of an attribute. {WHOLE}

ghost use Rattle.std.specs.Prelude.{{◌≡◌}};
ghost use Rattle.wf_wire.specs.Words.{{{', '.join(f'{kind.name}_at' for kind, _ in own)}}};

use crate::bits::bit_at;
{code}{told}"""


def words_antt(table):
    """Returns Words.antt: the words and the attributes by their numbers."""
    own = worded(table)
    told = ""
    for kind, names in own:
        told += f"""
abbrev pub {kind.name}_words : List {kind.type}
{kind.name}_words = {wrapped(' ∷ '.join(f'{kind.name}.{name}' for name in names))} ∷ []

abbrev pub {kind.name}_at : List ℕ → ℕ → {kind.type}
{kind.name}_at bits place = unwrap_or (slice_get {kind.name}_words (bit_at bits place)) {kind.name}.{names[0]}
"""
    lines = "".join(f"use {TYPES[kind.type][1]}.{{{kind.type}}}\nuse {TYPES[kind.type][1]}.TheVariants as {kind.name}\n" for kind, _ in own)
    return f"""-- The words and the attributes by their numbers, which count from 0, and the one of an argument. {WHOLE}
use Rattle.std.specs.Prelude.{{ℕ, List, [], ◌∷◌, slice_get, unwrap_or}}
use Rattle.wf_wire.specs.Bits.{{bit_at}}
{lines}{told}"""


def arguments_of(message):
    """Returns the fields of a message, each with the word that reads it and its place among the numbers."""
    place, own = 0, []
    for name, kind in message.arguments:
        own.append((name, f"{kind}_at", place))
        place += 4 if kind == "values" else 1
    return own


def meaning_rt(table):
    """Returns meaning.rt: what each message asks for."""
    arms, readers = "", set()
    for message in table.messages:
        if message in table.paints:
            arms += f"Form::{message.name} => Message::Paint({message.name.lower()}(bits)),"
        elif message.brings:
            arms += f"Form::{message.name} => Message::{message.name},"
        else:
            own = arguments_of(message)
            readers |= {reader for _, reader, _ in own}
            fields = " { " + ", ".join(f"{name}: {reader}(bits, {place})" for name, reader, place in own) + " }" if own else ""
            arms += f"Form::{message.name} => Message::Ask(Request::{message.name}{fields}),"
    words = sorted(readers & {f"{kind.name}_at" for kind, _ in worded(table)})
    return f"""//! What each message asks for, by the bits of its arguments. {WHOLE}

ghost use Rattle.std.specs.Prelude.{{◌≡◌, IsTrue}};
ghost use Rattle.wf_wire.specs.Meaning.{{message_of}};
ghost use Rattle.wf_wire.specs.Messages.{{may_paint}};

use crate::bits::{{{', '.join(sorted(readers - set(words)))}}};
use crate::form::Form;
use crate::message::Message;
use crate::paints::{{{', '.join(sorted(message.name.lower() for message in table.paints))}}};
use crate::words::{{{', '.join(words)}}};
use wf_calls::Request;

/// Returns what a message of `form` asks for, whose arguments have these bits.
pub(crate) fn message_of(form: Form, bits: &[u64]) -> Message
    ensures message {{ result ≡ message_of form bits.now }}
    ensures paint {{ IsTrue (may_paint result) }}
{{
    match form {{ {arms} }}
}}
"""


def meaning_antt(table):
    """Returns Meaning.antt: what each message asks for."""
    lines, readers = "", set()
    for message in table.messages:
        if message in table.paints:
            done = f"message.Paint ({message.name.lower()} bits)"
        elif message.brings:
            done = f"message.{message.name}"
        else:
            own = arguments_of(message)
            readers |= {reader for _, reader, _ in own}
            call = " ".join([f"request.{message.name}", *(f"({reader} bits {place})" for _, reader, place in own)])
            done = f"message.Ask ({call})" if own else f"message.Ask {call}"
        lines += equation(f"message_of form.{message.name} bits", done)
    words = sorted(readers & {f"{kind.name}_at" for kind, _ in worded(table)})
    return f"""-- What each message asks for, by the bits of its arguments. {WHOLE}
use Rattle.std.specs.Prelude.{{ℕ, List}}
use Rattle.wf_calls.specs.declared.request.Request.TheVariants as request
use Rattle.wf_wire.specs.declared.form.Form.{{Form}}
use Rattle.wf_wire.specs.declared.form.Form.TheVariants as form
use Rattle.wf_wire.specs.declared.message.Message.{{Message}}
use Rattle.wf_wire.specs.declared.message.Message.TheVariants as message
{used('Rattle.wf_wire.specs.Bits', sorted(readers - set(words)))}{used('Rattle.wf_wire.specs.Words', words)}\
{used('Rattle.wf_wire.specs.Paints', sorted(message.name.lower() for message in table.paints))}
abbrev pub message_of : Form → List ℕ → Message
{lines}"""
