//! Calls drawn at random.

use crate::call::{Call, Function, Function::*};
use crate::names::Kind;
use common::Random;

pub fn new(random: &mut Random, kind: Kind) -> Call {
    Call { function: New, first: kind.content_type(random), second: kind.body(random) }
}

/// Any changing call, or one on the header alone; one of `most` twice in three times where there are some.
pub fn any(random: &mut Random, kind: Kind, most: &[Function]) -> Call {
    const ALL: [Function; 20] = [
        SetBody,
        SetHeader,
        SetHeader,
        AddHeader,
        AddHeader,
        AddContent,
        AddContent,
        AddObj,
        From,
        To,
        DateTime,
        Subject,
        Cc,
        Require,
        SubjectLang,
        Ns,
        WithContent,
        HeaderNew,
        WithParam,
        WithParam,
    ];
    let function = if most.is_empty() || random.once_in(3) { random.pick(&ALL) } else { random.pick(most) };
    of(random, kind, function)
}

pub fn of(random: &mut Random, kind: Kind, function: Function) -> Call {
    let none = Vec::new();
    let (first, second) = match function {
        New => return new(random, kind),
        SetBody => (kind.body(random), none),
        AddObj => (kind.name(random), none),
        WithParam => (kind.param(random), kind.value(random)),
        SetHeader | AddHeader => (kind.name(random), kind.header_value(random)),
        AddContent | WithContent => (kind.name(random), kind.value(random)),
        Ns => kind.namespace(random),
        SubjectLang => (kind.header_value(random), kind.value(random)),
        From | To | DateTime | Subject | Cc | Require | HeaderNew => (kind.header_value(random), none),
    };
    Call { function, first, second }
}
