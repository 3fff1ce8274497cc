"""What tools/calls writes of wf_calls and of wf_model."""

import re

from lib.calls import need
from lib.crates import TOP

WHOLE = "tools/calls writes this file."
# The most characters of a line of code and of a definition.
LONGEST = 140


def used(place, names):
    """Returns the lines that import names from a place, each as long as a line may be."""
    lines, own = [], []
    for name in names:
        if own and len(f"use {place}.{{{', '.join([*own, name])}}}") > LONGEST:
            lines.append(own)
            own = []
        own.append(name)
    return "".join(f"use {place}.{{{', '.join(some)}}}\n" for some in [*lines, own])


def fields(call, form="{0}"):
    """Returns the fields of a call, each as `form` has it, in braces, or nothing where it has none."""
    return " { " + ", ".join(form.format(*pair) for pair in call.arguments) + " }" if call.arguments else ""


def typed(call, table):
    """Returns the fields of a call with their types, in braces, or nothing where it has none."""
    own = ", ".join(f"{name}: {table.kinds[kind].type}" for name, kind in call.arguments)
    return f" {{ {own} }}" if own else ""


def applied(of, call):
    """Returns a call as a definition takes it apart."""
    names = " ".join(name for name, _ in call.arguments)
    return f"({of}.{call.name} {names})" if names else f"{of}.{call.name}"


def equation(left, right):
    """Returns a line of a definition, or two where it is longer than a line may be."""
    return f"{left} = {right}\n" if len(left) + len(right) + 3 <= LONGEST else f"{left} =\n    {right}\n"


def plain(table):
    """Returns the calls that bring nothing, which are requests."""
    return [call for call in table.calls if not call.brings]


def any_of(calls):
    """Returns the pattern of one of some requests, whatever their fields."""
    return " | ".join(f"Request::{call.name}" + (" { .. }" if call.arguments else "") for call in calls)


def variants(table):
    """Returns the variants of the enum Call, each below what it does."""
    lines = []
    for call in table.calls:
        text = call.texts["does"]
        while text:
            cut = len(text) if len(text) <= 112 else text.rindex(" ", 0, 113)
            lines.append(f"    /// {text[:cut]}\n")
            text = text[cut:].strip()
        of = f"({table.kinds[call.arguments[0][1]].type})" if call.brings else typed(call, table)
        lines.append(f"    {call.name}{of},\n")
    return "".join(lines)


def request_rt(table):
    """Returns request.rt: requests, and the call of each."""
    own = "".join(f"{call.name}{typed(call, table)}," for call in plain(table))
    there = "".join(f"Request::{c.name}{fields(c)} => Call::{c.name}{fields(c)}," for c in plain(table))
    back = "".join(f"Call::{c.name}{fields(c)} => Request::{c.name}{fields(c, '{0}: *{0}')}," for c in plain(table))
    none = " | ".join(f"Call::{call.name}(_)" for call in table.calls if call.brings)
    return f"""//! Calls that bring nothing. {WHOLE}

ghost use Rattle.std.specs.Prelude.{{◌≡◌, MatchOption, true}};
ghost use Rattle.wf_calls.specs.Requests.{{brings, call_of}};

use crate::call::{{Call, StatWord}};
use crate::display::{{PipeAttr, PortAttr, Transition}};
use wf_pixel::Format;
use wf_scene::{{ContextAttr, ElementAttr}};

/// A call that brings neither a canvas nor a Job: the call of its name. It is as small as what it says, where each `Call` has the
/// room of a Job.
#[derive(Clone, Copy)]
pub enum Request {{ {own} }}

impl Request {{
    /// Returns the call that it is.
    pub fn call(self) -> Call
        ensures {{ result ≡ call_of self }}
    {{
        match self {{ {there} }}
    }}
}}

impl Call {{
    /// Returns what this call asks for, or `None` where it brings a canvas or a Job.
    pub fn request(&self) -> Option<Request>
        ensures {{ MatchOption result (brings self.now ≡ true) (λ request. call_of request ≡ self.now) }}
    {{
        let request = match self {{ {none} => return None, {back} }};
        Some(request)
    }}
}}
"""


def requests_antt(table):
    """Returns Requests.antt: the call of a request."""
    own = "".join(f"call_of {applied('request', call)} = {applied('call', call).strip('()')}\n" for call in plain(table))
    brings = "".join(f"brings {applied('call', c)} = {'true' if c.brings else 'false'}\n" for c in table.calls)
    return f"""-- A call that brings nothing, as the call that it is. {WHOLE}
use Rattle.std.specs.Prelude.{{Bool, true, false}}
use Rattle.wf_calls.specs.declared.call.Call.{{Call}}
use Rattle.wf_calls.specs.declared.call.Call.TheVariants as call
use Rattle.wf_calls.specs.declared.request.Request.{{Request}}
use Rattle.wf_calls.specs.declared.request.Request.TheVariants as request

abbrev pub call_of : Request → Call
{own}
-- a call that brings a write buffer or a Job
abbrev pub brings : Call → Bool
{brings}"""


def device_of(call):
    """Returns the device that a call names, or nothing."""
    return "device" if ("device", "handle") in call.arguments else ""


def part_rt(table):
    """Returns the arms of `Request::part`."""
    arms = {}
    for call in plain(table):
        device = device_of(call)
        of = {"composition": "Part::Composition { device: " + ("*device" if device else "0") + " }",
              "begin": "Part::Begin { device: " + ("Some(*device)" if device else "None") + " }"}
        arm = of.get(call.part, f"Part::{call.part.capitalize()}")
        rest = ", .." if len(call.arguments) > 1 else ""
        kept = device and call.part in of
        arms.setdefault(arm, []).append(f"Request::{call.name} {{ device{rest} }}" if kept else any_of([call]))
    return "".join(f"            {' | '.join(calls)} => {arm},\n" for arm, calls in arms.items())


def parts_antt(table):
    """Returns the lines of `part_of`."""
    lines = []
    for call in table.calls:
        device = device_of(call)
        of = {"composition": f"part.Composition {device or 0}", "begin": f"part.Begin {f'(Some {device})' if device else 'None'}"}
        lines.append(f"part_of {applied('call', call)} = {of.get(call.part, f'part.{call.part.capitalize()}')}\n")
    return "".join(lines)


def creation_rt(table):
    """Returns creation.rt: which calls make an object."""
    made = [call for call in plain(table) if call.is_creation]
    return f"""//! The calls that make an object. {WHOLE}

ghost use Rattle.std.specs.Prelude.{{◌≡◌}};
ghost use Rattle.wf_calls.specs.Creations.{{is_creation}};
ghost use Rattle.wf_calls.specs.Requests.{{call_of}};

use crate::request::Request;

impl Request {{
    /// Tells whether this call makes an object, whose handle it answers. No other call can answer OutOfMemory.
    pub fn is_creation(&self) -> bool
        ensures {{ result ≡ is_creation (call_of self.now) }}
    {{
        matches!(self, {any_of(made)})
    }}
}}
"""


def creations_antt(table):
    """Returns Creations.antt: which calls make an object."""
    own = "".join(f"is_creation {applied('call', c)} = {str(c.is_creation).lower()}\n" for c in table.calls)
    bare = "".join(f"creations_carry_nothing {applied('call', c)} made = refl\n" for c in table.calls if c.is_creation)
    return f"""-- The calls that make an object. {WHOLE}
use Rattle.std.specs.Prelude.{{◌≡◌, Bool, true, false, refl}}
use Rattle.wf_calls.specs.declared.call.Call.{{Call}}
use Rattle.wf_calls.specs.declared.call.Call.TheVariants as call
use Rattle.wf_calls.specs.Parts.{{carries, part_of}}

-- a creation, which answers a new handle, and alone takes memory
abbrev pub is_creation : Call → Bool
{own}
-- nothing goes with a creation or comes with its answer
pub creations_carry_nothing : (c : Call) → is_creation c ≡ true → carries (part_of c) ≡ false
{bare}creations_carry_nothing _ made = absurd cc
"""


def defined(word, but):
    """Returns the file of wf_model that defines a word, of all but one."""
    for path in sorted((TOP / "crates/wf_model/specs").glob("*.antt")):
        if path.stem != but and re.search(rf"^(?:abbrev |unfoldable )?pub {word} :", path.read_text(encoding="utf-8"), re.MULTILINE):
            return path.stem
    return None


def imports(words, types, but):
    """Returns the lines that import these types of wf_model, by the file of each, and the definitions of these names."""
    found = {module: [name] for name, module in types.items()}
    for word in sorted(words):
        module = defined(word, but)
        need(module, f"wf_model defines no {word}")
        found.setdefault(module, []).append(word)
    return "".join(used(f"Rattle.wf_model.specs.{module}", names) for module, names in sorted(found.items()))


def model(call, *more):
    """Returns what a call is by its definition, which takes its arguments and more."""
    own = call.own + ("_call" if call.part in ("streams", "buffers") else "")
    return " ".join(call.text("model", own) + [name for name, _ in call.arguments] + [word for word in more if word])


def calls_antt(table):
    """Returns Calls.antt of wf_model: what each call does, by who answers it."""
    marks = {call.name: "memory_refused" if call.is_creation else "" for call in table.calls}

    def lines(part, before, after, done):
        return "".join(equation(f"{before} {applied('call', c)}{after}", done(c)) for c in table.calls if c.part == part)

    def by_core(call):
        return model(call, "screen" if call.texts.get("sees") == "screen" else "", marks[call.name])

    def by_display(call):
        done = model(call, marks[call.name])
        return done if call.texts.get("sees") == "streams" else f"on_display ({done})"

    core = lines("composition", "core_call screen memory_refused", "", by_core)
    display = lines("display", "display_call memory_refused", "", by_display)
    streams = lines("streams", "stream_call memory_refused", " h", lambda call: model(call, marks[call.name], "h"))
    buffers = lines("buffers", "buffer_call", " h", lambda call: model(call, "h"))
    begin = lines("begin", "begin_call", " h", lambda call: model(call, "h"))
    end = lines("end", "end_call", " h", lambda call: model(call, "h"))
    body = f"""
-- what a call of composition does; screen is the stream of the screen that a call asks for, where its port was declared,
-- and memory_refused marks a creation for which there is no memory
abbrev pub core_call : Option ℕ → Bool → Call → CoreSide → Outcome CoreSide
{core}core_call screen memory_refused _ = λ w. Ok (w, 0)

-- what a call of the display does
abbrev pub display_call : Bool → Call → DisplaySide → Outcome DisplaySide
{display}display_call memory_refused _ = λ w. Ok (w, 0)

-- what a call on streams leaves and answers
abbrev pub stream_call : Bool → Call → State → State × Reply
{streams}stream_call memory_refused _ h = (h, bare (done 0))

-- what a call on a write buffer leaves and answers
abbrev pub buffer_call : Call → State → State × Reply
{buffers}buffer_call _ h = (h, bare (done 0))

-- the frame that a call begins, where it begins one, or its refusal
abbrev pub begin_call : Call → State → Result (Option Beginning) Refusal
{begin}begin_call _ h = Ok None

-- the end of a frame
abbrev pub end_call : Call → State → State × Reply
{end}end_call _ h = (h, bare (done 0))
"""
    words = {model(call).split()[0] for call in table.calls} | {"on_display"}
    types = {"CoreSide": "Composition", "DisplaySide": "DisplaySides", "Beginning": "Frames", "Outcome": "Outcome", "State": "State"}
    return f"""-- What each call does, by who answers it; a call of another part does nothing there. {WHOLE}
use Rattle.std.specs.Prelude.{{ℕ, Bool, Option, None, Result, Ok}}
use Rattle.wf_calls.specs.Replies.{{bare, done}}
use Rattle.wf_calls.specs.declared.call.Call.{{Call}}
use Rattle.wf_calls.specs.declared.call.Call.TheVariants as call
use Rattle.wf_calls.specs.declared.reply.Refusal.{{Refusal}}
use Rattle.wf_calls.specs.declared.reply.Reply.{{Reply}}
{imports(words, types, "Calls")}{body}"""
