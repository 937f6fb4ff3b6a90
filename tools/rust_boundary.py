"""rust/nuvaskoe/src/boundary.rs and refusals.rs from the Rattle source and the words of README's tables."""
import re

from c_header import MADE, NUMBERS

LAYOUT = """/// C name and size of every struct, and the name, offset and size of each field.
pub(crate) type Layout = (&'static str, usize, &'static [(&'static str, usize, usize)]);

macro_rules! layout {
    ($c:literal, $rust:ident { $($field:ident: $kind:ty),* }) => {
        ($c, size_of::<$rust>(), &[$((stringify!($field), offset_of!($rust, $field), size_of::<$kind>())),*])
    };
}
"""
REFUSALS = """//! The kinds of refusal, and the words of README's tables. @made

use crate::block::Reason;

/// Why a call said no: a row of the table of refusals.
#[non_exhaustive]
#[derive(Debug, Clone, Copy, PartialEq, Eq, Hash)]
#[repr(u32)]
pub enum RefusalKind {
@variants
}

impl RefusalKind {
    /// All kinds, in the table's order.
    pub const ALL: &'static [RefusalKind] = &[
@all
    ];

    /// The number in the table, from 1.
    pub fn number(self) -> u32 {
        self as u32
    }

    /// The kind with this number.
    pub fn numbered(number: u32) -> Option<RefusalKind> {
        let index = usize::try_from(number).ok()?.checked_sub(1)?;
        RefusalKind::ALL.get(index).copied()
    }

    /// What went wrong.
    pub fn meaning(self) -> &'static str {
        match self {
@meanings
        }
    }

    /// What to do about it.
    pub fn advice(self) -> &'static str {
        match self {
@advice
        }
    }
}

impl Reason {
    /// All reasons, in the order in which they are looked for.
    pub const ALL: &'static [Reason] = &[
@all_reasons
    ];

    /// The number in a listing, from 1.
    pub fn number(self) -> u32 {
        match self {
@reason_numbers
        }
    }

    /// The reason with this number.
    pub fn numbered(number: u32) -> Option<Reason> {
        Reason::ALL.iter().copied().find(|reason| reason.number() == number)
    }

    /// What is wrong with the block.
    pub fn meaning(self) -> &'static str {
        match self {
@reason_meanings
        }
    }

    /// What to do about it.
    pub fn advice(self) -> &'static str {
        match self {
@reason_advice
        }
    }
}
"""


def camel(name):
    return "".join(word.capitalize() for word in name.removeprefix("nuvaskoe_").split("_"))


def boundary_rs(source, header):
    """The declarations, and the layout that the structs have in Rust."""
    structs = [source.by_c_name[name] for name in header.used if name in source.by_c_name]
    out = [f"//! The C boundary as `include/nuvaskoe.h` has it. {MADE}", "#![allow(dead_code)]", ""]
    out += ["use std::mem::{offset_of, size_of};", ""]
    out += [f"pub(crate) const {name}: {kind} = {number};" for name, kind, number in header.constants]
    for s in structs:
        traits = "PartialEq" if floating(source, s) else "PartialEq, Eq"
        out += ["", "#[repr(C)]", f"#[derive(Debug, Clone, Copy, {traits})]", f"pub(crate) struct {camel(s.c_name)} {{"]
        out += [f"    pub(crate) {name}: {kind_of(source, kind)}," for name, kind, _ in s.fields] + ["}"]
    out += ["", "extern \"C\" {"] + [declared(source, call) for call in source.calls]
    out += ["}", "", LAYOUT, "pub(crate) const LAYOUTS: &[Layout] = &["]
    for s in structs:
        fields = ", ".join(f"{name}: {kind_of(source, kind)}" for name, kind, _ in s.fields)
        out.append(f"    layout!(\"{s.c_name}\", {camel(s.c_name)} {{ {fields} }}),")
    return "\n".join(out + ["];"]) + "\n"


def floating(source, s):
    """Whether a struct holds a float, in itself or in a struct of its own."""
    kinds = [re.sub(r"\[(\w+);.*", r"\1", kind) for _, kind, _ in s.fields]
    return any(kind == "f32" or kind in source.structs and floating(source, source.structs[kind]) for kind in kinds)


def kind_of(source, kind):
    array = re.match(r"\[(\w+); (.+)\]", kind)
    if array:
        return f"[{array[1]}; {source.constant(array[2])[0]}]"
    return kind if kind in NUMBERS else camel(source.structs[kind].c_name)


def declared(source, call):
    params = []
    for param, kind in call.params:
        lent = re.match(r"&(mut )?\[(\w+)\]", kind)
        if lent:
            params += [f"{param}: *{'mut' if lent[1] else 'const'} {lent[2]}", f"{param}_len: usize"]
        else:
            params.append(f"{param}: {kind_of(source, kind)}")
    return f"    pub(crate) fn {call.name}({', '.join(params)}) -> {kind_of(source, call.answer)};"


def refusals_rs(source):
    """The kinds of refusal, their words and those of reasons."""
    rows = [(camel(name.lower()), n, source.refusal_words[n]) for name, n in source.refusals]
    reasons = [(camel(name.lower()), n, source.reason_words[n]) for name, n in source.reasons]
    parts = {
        "made": [MADE],
        "variants": [f"    /// {words[0][0].upper()}{words[0][1:]}.\n    {name} = {n}," for name, n, words in rows],
        "all": [f"        RefusalKind::{name}," for name, _, _ in rows],
        "meanings": [f"            RefusalKind::{name} => \"{words[0]}\"," for name, _, words in rows],
        "advice": [f"            RefusalKind::{name} => \"{words[1]}\"," for name, _, words in rows],
        "all_reasons": [f"        Reason::{name}," for name, _, _ in reasons],
        "reason_numbers": [f"            Reason::{name} => {n}," for name, n, _ in reasons],
        "reason_meanings": [f"            Reason::{name} => \"{words[0]}\"," for name, _, words in reasons],
        "reason_advice": [f"            Reason::{name} => \"{words[1]}\"," for name, _, words in reasons],
    }
    return re.sub(r"@(\w+)", lambda m: "\n".join(parts[m[1]]), REFUSALS)
