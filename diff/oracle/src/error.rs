//! Errors of the crate: as answers, and made of a request.

use crate::json::{bytes_of, leaked, leaked_names, member, member_or, required, taken, Asked, Json};
use ron::error::{Error, Span, SpannedError};
use serde_json::json;

/// The message, the name of the case, and its debug text.
pub fn refused(error: &Error) -> Json {
    let debug = format!("{error:?}");
    let kind = debug.split(|character: char| !character.is_ascii_alphanumeric()).next();
    json!({ "err": error.to_string(), "kind": kind, "debug": debug })
}

pub fn refused_at(refusal: &SpannedError) -> Json {
    let Span { start, end } = &refusal.span;
    let mut answer = refused(&refusal.code);
    answer["span"] = json!([start.line, start.col, end.line, end.col]);
    answer
}

/// An error of these cases, which have no parts, if `kind` is one of them.
macro_rules! without_parts {
    ($kind:ident: $($case:ident)*) => {
        match $kind {
            $(stringify!($case) => Some(Error::$case),)*
            _ => None,
        }
    };
}

/// The error of the request's `kind`, of its other members.
pub fn error_of(request: &Json) -> Asked<Error> {
    let kind: String = member(request, "kind")?;
    let kind = kind.as_str();
    let plain = without_parts!(kind:
        Fmt Eof ExpectedArray ExpectedArrayEnd ExpectedAttribute ExpectedAttributeEnd ExpectedBoolean ExpectedComma
        ExpectedChar ExpectedByteLiteral ExpectedFloat FloatUnderscore ExpectedInteger ExpectedOption ExpectedOptionEnd
        ExpectedMap ExpectedMapColon ExpectedMapEnd ExpectedStructLike ExpectedStructLikeEnd ExpectedUnit ExpectedString
        ExpectedByteString ExpectedStringEnd ExpectedIdentifier IntegerOutOfBounds UnclosedBlockComment
        UnclosedLineComment UnderscoreAtBeginning TrailingCharacters ExpectedRawValue ExceededRecursionLimit
        ExpectedRangeSyntax
    );
    match plain {
        Some(error) => Ok(error),
        None => with_parts(kind, request),
    }
}

fn with_parts(kind: &str, request: &Json) -> Asked<Error> {
    let text = |name| member::<String>(request, name);
    let fixed = |name| text(name).map(|text| leaked(&text));
    Ok(match kind {
        "Io" => Error::Io(text("text")?),
        "Message" => Error::Message(text("text")?),
        "ExpectedNamedStructLike" => Error::ExpectedNamedStructLike(fixed("name")?),
        "InvalidEscape" => Error::InvalidEscape(fixed("text")?),
        "NoSuchExtension" => Error::NoSuchExtension(text("name")?),
        "InvalidIdentifier" => Error::InvalidIdentifier(text("name")?),
        "SuggestRawIdentifier" => Error::SuggestRawIdentifier(text("name")?),
        "ExpectedStructName" => Error::ExpectedStructName(text("name")?),
        "UnexpectedChar" => Error::UnexpectedChar(member(request, "char")?),
        "InvalidIntegerDigit" => {
            Error::InvalidIntegerDigit { digit: member(request, "digit")?, base: member(request, "base")? }
        }
        "Utf8Error" => match std::str::from_utf8(&bytes_of(&text("hex")?)?) {
            Ok(text) => return Err(format!("UTF-8: {text}")),
            Err(why) => Error::Utf8Error(why),
        },
        "ExpectedDifferentStructName" => {
            Error::ExpectedDifferentStructName { expected: fixed("expected")?, found: text("found")? }
        }
        "InvalidValueForType" => Error::InvalidValueForType { expected: text("expected")?, found: text("found")? },
        "ExpectedDifferentLength" => {
            Error::ExpectedDifferentLength { expected: text("expected")?, found: member(request, "found")? }
        }
        _ => return of_names(kind, request),
    })
}

/// Errors that tell in what struct or enum, where it has a name.
fn of_names(kind: &str, request: &Json) -> Asked<Error> {
    let outer: Option<String> = member_or(request, "outer", None)?;
    let field = || member::<String>(request, "field").map(|name| leaked(&name));
    let expected = || {
        let names: Vec<String> = taken(required(request, "expected")?)?;
        Asked::Ok(leaked_names(names.iter().map(String::as_str)))
    };
    let found = || member::<String>(request, "found");
    Ok(match kind {
        "NoSuchEnumVariant" => Error::NoSuchEnumVariant { expected: expected()?, found: found()?, outer },
        "NoSuchStructField" => Error::NoSuchStructField { expected: expected()?, found: found()?, outer },
        "MissingStructField" => Error::MissingStructField { field: field()?, outer },
        "DuplicateStructField" => Error::DuplicateStructField { field: field()?, outer },
        _ => return Err(format!("no error {kind}")),
    })
}
