"""What tools/calls writes of wf_core, wf_display, wf_machine, wf_turn and cases_machine."""

import re

from lib.calls_lower import WHOLE, any_of, applied, equation, fields, plain
from lib.crates import TOP


def of_part(table, part):
    """Returns the calls that a part answers and that are requests."""
    return [call for call in plain(table) if call.part == part]


def carried(call, key, otherwise, owner, first):
    """Returns the call of the function that carries a call out or denies it. Behind what it takes first stand the arguments of the row. It
    is a method of `owner`, where there is one, or of what stands before the dot of its name, which it does not take again."""
    name, *more = call.text(key, otherwise)
    sees = ["screen"] if call.texts.get("sees") == "screen" else []
    name = f"{owner}.{name}" if owner else name
    first = [word for word in first if word != name.partition(".")[0]]
    return f"{name}({', '.join([*first, *more, *('*' + field for field, _ in call.arguments), *sees])})"


def arms(calls, table, of):
    """Returns the arms of a table of some calls, and one for all others, which none of its callers has."""
    named = "".join(f"Request::{call.name}{fields(call)} => {of(call)}," for call in calls)
    return f"{named} {any_of([call for call in plain(table) if call not in calls])} => unreachable!(),"


def functions(crate, words):
    """Returns the lines that import these functions of a crate, by the files that define them."""
    found = {}
    for path in sorted((TOP / f"crates/{crate}/src").glob("*.rt")):
        text = path.read_text(encoding="utf-8")
        own = sorted(word for word in words if re.search(rf"^pub\(crate\) fn {word}\b", text, re.MULTILINE))
        if own:
            found[path.stem] = own
    return "".join(f"use crate::{module}::{{{', '.join(own)}}};\n" for module, own in found.items())


def core_rt(table):
    """Returns table.rt of wf_core: the functions that carry out and deny the calls of composition."""
    calls = of_part(table, "composition")
    made = [call for call in calls if call.is_creation]
    first = ["objects", "store"]
    carry = arms(calls, table, lambda call: carried(call, "method", f"try_{call.own}", "", first))
    deny = arms(made, table, lambda call: carried(call, "denial", f"deny_{call.own}", "", first))
    words = {call.text("method", f"try_{call.own}")[0] for call in calls} | {call.text("denial", f"deny_{call.own}")[0] for call in made}
    return f"""//! The calls of composition, by one table. {WHOLE}

ghost use Rattle.std.specs.Prelude.{{IsTrue, true}};
ghost use Rattle.wf_calls.specs.Creations.{{is_creation}};
ghost use Rattle.wf_calls.specs.Parts.{{is_of_core, part_of}};
ghost use Rattle.wf_calls.specs.Requests.{{call_of}};
ghost use Rattle.wf_core.specs.Steps.{{IsGiven}};
ghost use Rattle.wf_model.specs.Calls.{{core_call}};
ghost use Rattle.wf_model.specs.Names.{{core_names}};
ghost use Rattle.wf_objects.specs.Does.{{Does}};
ghost use Rattle.wf_objects.specs.Fits.{{Fits}};
ghost use Rattle.wf_stream.specs.Names.{{HasRoom, NamesFit}};

{functions("wf_core", words)}use wf_calls::{{Refusal, Request}};
use wf_objects::Objects;
use wf_stream::Store;

/// Carries a call of composition out, or refuses it. The screen is that of the port that the call names, where it was
/// declared and the call makes the screen's context.
pub(crate) fn carry_out(objects: &mut Objects, store: &mut Store, call: &Request, screen: Option<u32>) -> Result<u32, Refusal>
    requires fits {{ Fits objects.old store.old }}
    requires names {{ NamesFit (core_names objects.old) store.old }}
    requires room {{ HasRoom store.old }}
    requires ours {{ IsTrue (is_of_core (part_of (call_of call.now))) }}
    requires given {{ IsGiven (call_of call.now) screen store.old.streams }}
    ensures {{ Does (λ m. core_call screen m (call_of call.now)) objects.old objects.new store.old store.new result }}
{{
    match call {{ {carry} }}
}}

/// The refusal of a creation for which there is no memory.
pub(crate) fn deny(objects: &Objects, store: &Store, call: &Request, screen: Option<u32>) -> Result<u32, Refusal>
    requires fits {{ Fits objects.now store.now }}
    requires creation {{ IsTrue (is_creation (call_of call.now)) }}
    requires ours {{ IsTrue (is_of_core (part_of (call_of call.now))) }}
    requires given {{ IsGiven (call_of call.now) screen store.now.streams }}
    ensures {{ Does (λ _. core_call screen true (call_of call.now)) objects.now objects.now store.now store.now result }}
{{
    match call {{ {deny} }}
}}
"""


def display_rt(table):
    """Returns table.rt of wf_display: the methods that carry out and deny the calls of the display."""
    calls = of_part(table, "display")
    made = [call for call in calls if call.is_creation]
    carry = arms(calls, table, lambda call: carried(call, "method", f"try_{call.own}", "self", ["store"]))
    deny = arms(made, table, lambda call: carried(call, "denial", f"deny_{call.own}", "self", ["store"]))
    return f"""//! The calls of the display, by one table. {WHOLE}

ghost use Rattle.std.specs.Prelude.{{◌≡◌, IsTrue, true}};
ghost use Rattle.wf_calls.specs.Creations.{{is_creation}};
ghost use Rattle.wf_calls.specs.Parts.{{part_of}};
ghost use Rattle.wf_calls.specs.Requests.{{call_of}};
ghost use Rattle.wf_display.specs.Does.{{Does}};
ghost use Rattle.wf_display.specs.Fits.{{Fits}};
ghost use Rattle.wf_model.specs.Calls.{{display_call}};
ghost use Rattle.wf_model.specs.Names.{{display_names}};
ghost use Rattle.wf_stream.specs.Names.{{HasRoom, NamesFit}};

use crate::display::Display;
use wf_calls::{{Part, Refusal, Request}};
use wf_model::Extent;
use wf_stream::Store;

impl Display {{
    /// Carries a call of the display out, or refuses it.
    pub(crate) fn carry_out(&mut self, store: &mut Store, call: &Request) -> Result<u32, Refusal>
        requires fits {{ Fits self.old store.old }}
        requires names {{ NamesFit (display_names self.old) store.old }}
        requires room {{ HasRoom store.old }}
        requires ours {{ part_of (call_of call.now) ≡ Part.Display }}
        ensures {{ Does (λ m. display_call m (call_of call.now)) self.old self.new store.old store.new result }}
    {{
        match call {{ {carry} }}
    }}

    /// The refusal of a creation for which there is no memory.
    pub(crate) fn denied(&self, store: &Store, call: &Request) -> Result<u32, Refusal>
        requires fits {{ Fits self.now store.now }}
        requires creation {{ IsTrue (is_creation (call_of call.now)) }}
        requires ours {{ part_of (call_of call.now) ≡ Part.Display }}
        ensures {{ Does (λ _. display_call true (call_of call.now)) self.now self.now store.now store.now result }}
    {{
        match call {{ {deny} }}
    }}
}}
"""


def machine_rt(table):
    """Returns table.rt of wf_machine: the methods that answer and deny the calls on streams, and that begin frames."""
    streams, begins = of_part(table, "streams"), of_part(table, "begin")
    made = [call for call in streams if call.is_creation]
    act = arms(streams, table, lambda call: carried(call, "method", call.own, "self", []))
    deny = arms(made, table, lambda call: carried(call, "denial", f"deny_{call.own}", "self", []))
    begin = arms(begins, table, lambda call: carried(call, "method", call.own, "self", [])[:-1] + ", place)")
    return f"""//! The calls on streams and those that begin frames, by one table. {WHOLE}

ghost use Rattle.std.specs.Prelude.{{◌≡◌, IsTrue, None, true}};
ghost use Rattle.wf_calls.specs.Creations.{{is_creation}};
ghost use Rattle.wf_calls.specs.Parts.{{is_begin, part_of}};
ghost use Rattle.wf_calls.specs.Places.{{job_in}};
ghost use Rattle.wf_calls.specs.Replies.{{bare, with_job}};
ghost use Rattle.wf_calls.specs.Requests.{{call_of}};
ghost use Rattle.wf_machine.specs.Object.{{IsAct, IsMarkedAct}};

use crate::parts::Parts;
use wf_calls::{{Answer, JobPlace, Part, Request}};

impl Parts {{
    /// Does what a call on streams asks for.
    pub(crate) fn act_on_streams(&mut self, call: &Request) -> Answer
        requires {{ part_of (call_of call.now) ≡ Part.Streams }}
        ensures {{ IsAct self.old (call_of call.now) self.new (bare result) }}
    {{
        self.prove_all_named();
        match call {{ {act} }}
    }}

    /// Refuses the creation of a stream.
    pub(crate) fn deny_on_streams(&self, call: &Request) -> Answer
        requires creation {{ IsTrue (is_creation (call_of call.now)) }}
        requires ours {{ part_of (call_of call.now) ≡ Part.Streams }}
        ensures {{ IsMarkedAct true self.now (call_of call.now) self.now (bare result) }}
    {{
        self.prove_all_named();
        match call {{ {deny} }}
    }}

    /// Begins the frame that a call asks for. Its Job is put in a place that holds none.
    pub(crate) fn act_begin(&mut self, call: &Request, place: &mut JobPlace) -> Answer
        requires begins {{ IsTrue (is_begin (call_of call.now)) }}
        requires empty {{ job_in place.old ≡ None }}
        ensures {{ IsAct self.old (call_of call.now) self.new (with_job result (job_in place.new)) }}
    {{
        match call {{ {begin} }}
    }}
}}
"""


def subjects(table):
    """Returns the calls of lines that are one call and wait for nothing, by subject, in the order of the table."""
    found = {}
    for call in table.calls:
        if call.waits == "never" and call.is_line:
            found.setdefault(call.subject, []).append(call)
    return found


def chain(table):
    """Yields for each subject its function's name, the next one's or none, its calls and the subject."""
    found = subjects(table)
    names = ["plain_call", *(f"{subject.rstrip('s')}_call" for subject in list(found)[1:]), None]
    yield from zip(names, names[1:], found.values(), found)


def given(name, kind):
    """Returns what stands in a call for the word of a line."""
    return {"handle": f"self.handle({name})", "values": f"self.set_to({name})"}.get(kind, f"*{name}")


def request_of(call):
    """Returns the request of a line."""
    own = ", ".join(f"{name}: {given(name, kind)}" for name, kind in call.arguments)
    return f"Request::{call.name}" + (f" {{ {own} }}" if own else "")


def turn_rt(table):
    """Returns calls.rt of wf_turn: the requests of lines."""
    own = []
    for name, after, calls, subject in reversed(list(chain(table))):
        put = "".join(f"Verb::{call.name}{fields(call)} => put(call, {request_of(call)})," for call in calls)
        rest = f"self.{after}(verb, call)" if after else "false"
        of = f"of the subject {subject}" + (" or of a later one" if after else "")
        says = f"a line {of}" if name != "plain_call" else "a line that is one call and waits for nothing"
        own.append(f"""    /// The call of {says}, if it is such a line: it is put where a call stood.
    {'pub(crate) ' if name == 'plain_call' else ''}fn {name}(&self, verb: &'a Verb, call: &mut Request) -> bool
        ensures {{ IsPut ({name} (handle self.now) verb.now) (call_of call.new) result }}
    {{
        match verb {{ {put} _ => {rest}, }}
    }}
""")
    names = sorted(name for name, *_ in chain(table))
    return f"""//! The calls of lines that are one call and wait for nothing, by subjects. {WHOLE}

ghost use Rattle.wf_calls.specs.Requests.{{call_of}};
ghost use Rattle.wf_turn.specs.Calls.{{{', '.join(names)}}};
ghost use Rattle.wf_turn.specs.Program.{{handle}};
ghost use Rattle.wf_turn.specs.Puts.{{IsPut}};

use crate::program::Program;
use crate::puts::put;
use wf_calls::Request;
use wf_script::Verb;

impl<'a> Program<'a> {{
""" + "\n".join(own) + "}\n"


def turn_antt(table):
    """Returns Calls.antt of wf_turn: the calls of lines."""
    take = {"handle": "(handle {})", "values": "(set_to handle {})"}
    own = []
    for name, after, calls, subject in reversed(list(chain(table))):
        says = f"a line of the subject {subject}" + (" or of a later one" if after else "")
        says = "a line that is one call and waits for nothing" if name == "plain_call" else says
        lines = []
        for call in calls:
            done = " ".join([f"call.{call.name}", *(take.get(kind, "{}").format(field) for field, kind in call.arguments)])
            lines.append(equation(f"{name} handle {applied('verb', call)}", f"Some {f'({done})' if call.arguments else done}"))
        rest = f"{name} handle v = {after} handle v" if after else f"{name} handle _ = None"
        own.append(f"\n-- the call of {says}\nabbrev pub {name} : (Option Name → ℕ) → Verb → Option Call\n{''.join(lines)}{rest}\n")
    return f"""-- The calls of lines that are one call and wait for nothing. A handle is the value of its name. {WHOLE}
use Rattle.std.specs.Prelude.{{ℕ, Option, Some, None}}
use Rattle.wf_calls.specs.declared.call.Call.{{Call}}
use Rattle.wf_calls.specs.declared.call.Call.TheVariants as call
use Rattle.wf_script.specs.declared.line.Verb.{{Verb}}
use Rattle.wf_script.specs.declared.line.Verb.TheVariants as verb
use Rattle.wf_script.specs.declared.name.Name.{{Name}}
use Rattle.wf_turn.specs.Puts.{{set_to}}
""" + "".join(own)


# How the word at a place is read, by the kind of an argument.
READS = {"number": "number(words, {})", "handle": "number(words, {})", "format": "format(words, {})", "values": "value(words, {})"}
# The functions that wf_cases has for them.
SHARED = {"format", "value", "element_attr", "context_attr"}


def read_by(kind):
    """Returns how a word of a kind is read."""
    return READS.get(kind.name, f"{kind.name}_word(words, {{}})" if not kind.is_attribute else f"{kind.name}_attr(words, {{}})")


def cases_rt(table):
    """Returns calls.rt of cases_machine: the calls of cases, by subjects, with numbers that are read once for all calls of a subject."""
    groups, own, used = {}, [], set()
    for call in plain(table):
        groups.setdefault(call.subject, []).append(call)
    for subject, calls in groups.items():
        places = {}
        for call in calls:
            for place, (name, kind) in enumerate(call.arguments, 1):
                if kind in ("number", "handle"):
                    places.setdefault(name, []).append((place, kind))
        first = {name: at[0] for name, at in places.items() if len(at) > 1}
        lets = "".join(f"let {name} = number(words, {place});" for name, (place, _) in first.items())
        lines = []
        for call in calls:
            values = []
            for place, (name, kind) in enumerate(call.arguments, 1):
                used.add(kind)
                is_read = first.get(name) == (place, kind)
                values.append(name if is_read else f"{name}: {read_by(table.kinds[kind]).format(place)}")
            made = f"Call::{call.name}" + (f" {{ {', '.join(values)} }}" if values else "")
            lines.append(f'"{call.word.strip("()")}" => {made},')
        own.append(f"""/// A call of the subject {subject}.
fn of_{subject}(words: &[&str]) -> Option<Call> {{
    {lets}
    let call = match word(words, 0) {{ {''.join(lines)} _ => return None, }};
    Some(call)
}}
""")
    calls = "".join(f".or(of_{subject}(words))" for subject in list(groups)[1:])
    words = {read_by(table.kinds[kind]).partition("(")[0] for kind in used}
    shared = sorted(words & SHARED)
    local = sorted(words - SHARED - {"number"})
    return f"""//! The calls that lines of cases stand for, with a number for each handle. {WHOLE}

use crate::words::{{{', '.join(local)}}};
use wf_calls::Call;
use wf_cases::{{{', '.join(sorted([*shared, 'number', 'word']))}}};

/// The call of a line that gives nothing back.
pub(crate) fn call_of(words: &[&str]) -> Option<Call> {{
    of_{list(groups)[0]}(words){calls}
}}

""" + "\n".join(own)


def chosen(name, kind, choices, shown):
    """Returns a function that reads a word of a kind; a word that is none of them is the last one."""
    lines = "".join(f'"{word}" => {kind.type}::{value},' for word, value in choices[:-1])
    return f"""/// Returns the `{kind.type}` of the word at a place, or the last one where it is none of its words.
{shown} fn {name}(words: &[&str], at: usize) -> {kind.type} {{
    match word(words, at) {{ {lines} _ => {kind.type}::{choices[-1][1]}, }}
}}
"""


def attr_words(table, objects, shown):
    """Returns the functions that read attributes of some objects."""
    return [chosen(f"{name}_attr", table.kinds[name], [(a.word, a.name) for a in table.attributes_of(name)], shown) for name in objects]


def case_attributes_rt(table):
    """Returns attributes.rt of wf_cases: attributes of elements and contexts by their words."""
    return f"""//! Attributes, from their words in scripts. {WHOLE}

use crate::words::word;
use wf_scene::{{ContextAttr, ElementAttr}};

""" + "\n".join(attr_words(table, ("element", "context"), "pub"))


def case_words_rt(table):
    """Returns words.rt of cases_machine: attributes of ports and pipelines, and words of other kinds."""
    own = attr_words(table, ("port", "pipe"), "pub(crate)")
    for name in "stat", "transition":
        kind = table.kinds[name]
        own.append(chosen(f"{name}_word", kind, [(word, word.capitalize()) for word in kind.words], "pub(crate)"))
    return f"""//! Arguments that have words of their own, from these words in scripts. {WHOLE}

use wf_calls::{{PipeAttr, PortAttr, StatWord, Transition}};
use wf_cases::word;

""" + "\n".join(own)
