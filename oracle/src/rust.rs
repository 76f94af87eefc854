//! The Rust: the listed function of each rule, and what it gives as a `Tree`.

use std::borrow::Cow;
use std::panic::{catch_unwind, AssertUnwindSafe};
use std::sync::Once;

use imap_proto::reach::{self, Metadata, UidSetMember};
use imap_proto::{
    Address, AttributeValue, BodyExtension, BodyParams, BodyStructure, ContentDisposition, ContentEncoding, Envelope,
    MailboxDatum, MessageSection, Response, ResponseCode, SectionPath,
};
use nom::bytes::streaming::take_asked;
use nom::{Err, IResult, Needed};

use crate::tree::{Answer, Part, Tree};

/// What the Rust answers for a rule of docs/RULES.md. Panics are caught. A rule that there is none of is an Error.
pub fn oracle(rule: u32, bytes: &[u8]) -> Answer {
    static QUIET: Once = Once::new();
    QUIET.call_once(|| {
        let other = std::panic::take_hook();
        std::panic::set_hook(Box::new(move |info| {
            // slice_to_str's unwrap is expected; every other panic is told
            let expected = info.location().is_some_and(|l| l.file().ends_with("rfc5464.rs"));
            if !expected {
                other(info);
            }
        }));
    });
    take_asked();
    catch_unwind(AssertUnwindSafe(|| read(rule, bytes))).unwrap_or(Answer::Panic)
}

fn read(rule: u32, s: &[u8]) -> Answer {
    let b = Buffer(s);
    match rule {
        1 => b.answer(reach::number(s), |v| Tree::Number(v as u64)),
        2 => b.answer(reach::number_64(s), Tree::Number),
        3 => b.answer(reach::quoted(s), |v| b.raw(v)),
        4 => b.answer(reach::literal(s), |v| b.raw(v)),
        5 => b.answer(reach::string(s), |v| b.raw(v)),
        6 => b.answer(reach::astring(s), |v| b.raw(v)),
        7 => b.answer(reach::nstring(s), |v| maybe(v, |v| b.raw(v))),
        8 => b.answer(reach::text(s), |v| b.text(&v)),
        9 => b.answer(reach::sequence_set(s), ranges),
        10 => b.answer(reach::uid_set(s), uids),
        11 => b.answer(reach::section(s), section),
        12 => b.answer(reach::entry_name(s), |v| b.raw(v)),
        13 => b.answer(reach::envelope(s), |v| b.envelope(v)),
        14 => b.answer(reach::body(s), |v| b.body(v)),
        15 => b.answer(reach::resp_text_code_append_uid(s), code),
        16 => b.answer(reach::resp_text_code_copy_uid(s), code),
        17 => b.answer(reach::resp_text_code_uid_not_sticky(s), code),
        18 => b.answer(reach::resp_vanished(s), |v| b.response(v)),
        19 => b.answer(reach::resp_text_code_highest_mod_seq(s), code),
        20 => b.answer(reach::msg_att_mod_seq(s), |v| b.attribute(v)),
        21 => b.answer(reach::msg_att_body_section(s), |v| b.attribute(v)),
        22 => b.answer(reach::metadata_solicited(s), |v| b.response(v)),
        23 => b.answer(reach::metadata_unsolicited(s), |v| b.response(v)),
        24 => b.answer(reach::msg_att_envelope(s), |v| b.attribute(v)),
        25 => b.answer(reach::msg_att_body_structure(s), |v| b.attribute(v)),
        _ => Answer::Error,
    }
}

fn maybe<T>(v: Option<T>, f: impl FnOnce(T) -> Tree) -> Tree {
    v.map_or(Tree::None, f)
}

fn ranges(v: Vec<std::ops::RangeInclusive<u32>>) -> Tree {
    Tree::List(v.into_iter().map(|r| Tree::Range(*r.start(), *r.end())).collect())
}

fn uids(v: Vec<UidSetMember>) -> Tree {
    let one = |m| match m {
        UidSetMember::UidRange(r) => Tree::Range(*r.start(), *r.end()),
        UidSetMember::Uid(n) => Tree::Uid(n),
    };
    Tree::List(v.into_iter().map(one).collect())
}

fn section_text(v: MessageSection) -> Tree {
    Tree::SectionText(match v {
        MessageSection::Header => 1,
        MessageSection::Mime => 2,
        MessageSection::Text => 3,
    })
}

fn section(v: Option<SectionPath>) -> Tree {
    maybe(v, |v| match v {
        SectionPath::Full(text) => section_text(text),
        SectionPath::Part(part, text) => {
            let part = part.into_iter().map(|n| Tree::Number(n as u64)).collect();
            Tree::Structure(18, vec![Tree::List(part), maybe(text, section_text)])
        }
    })
}

fn code(v: ResponseCode<'_>) -> Tree {
    match v {
        ResponseCode::AppendUid(n, set) => Tree::Structure(20, vec![Tree::Number(n as u64), uids(set)]),
        ResponseCode::CopyUid(n, from, to) => Tree::Structure(21, vec![Tree::Number(n as u64), uids(from), uids(to)]),
        ResponseCode::UidNotSticky => Tree::Structure(22, vec![]),
        ResponseCode::HighestModSeq(n) => Tree::Number(n),
        other => unreachable!("{other:?}"),
    }
}

/// The buffer of a reading: slices of it have a place in it.
#[derive(Clone, Copy)]
struct Buffer<'a>(&'a [u8]);

impl<'a> Buffer<'a> {
    fn answer<T>(self, r: IResult<&'a [u8], T>, tree: impl FnOnce(T) -> Tree) -> Answer {
        match r {
            Ok((rest, v)) => {
                // what is left is the end of the buffer
                assert_eq!(rest.as_ptr_range().end, self.0.as_ptr_range().end);
                Answer::Ok(self.0.len() - rest.len(), tree(v))
            }
            Err(Err::Incomplete(n)) => {
                let needed = match n {
                    Needed::Unknown => None,
                    Needed::Size(n) => Some(n.get()),
                };
                Answer::Incomplete { needed, literal: take_asked() }
            }
            Err(Err::Error(_)) => Answer::Error,
            Err(Err::Failure(_)) => Answer::Failure,
        }
    }

    fn part(self, v: &[u8]) -> Part {
        let (mine, its) = (self.0.as_ptr_range(), v.as_ptr_range());
        let inside = !v.is_empty() && mine.start <= its.start && its.end <= mine.end;
        Part { at: inside.then(|| its.start as usize - mine.start as usize), bytes: v.to_vec() }
    }

    fn raw(self, v: &[u8]) -> Tree {
        Tree::Raw(self.part(v))
    }

    fn text(self, v: &str) -> Tree {
        Tree::Text(self.part(v.as_bytes()))
    }

    fn raws(self, v: Option<Cow<'_, [u8]>>) -> Tree {
        maybe(v, |v| self.raw(&v))
    }

    fn texts(self, v: Option<Cow<'_, str>>) -> Tree {
        maybe(v, |v| self.text(&v))
    }

    fn attribute(self, v: AttributeValue<'_>) -> Tree {
        match v {
            AttributeValue::ModSeq(n) => Tree::Number(n),
            AttributeValue::BodySection { section: path, index, data } => {
                Tree::Structure(19, vec![section(path), maybe(index, |n| Tree::Number(n as u64)), self.raws(data)])
            }
            AttributeValue::Envelope(e) => self.envelope(*e),
            AttributeValue::BodyStructure(b) => self.body(b),
            other => unreachable!("{other:?}"),
        }
    }

    fn response(self, v: Response<'_>) -> Tree {
        match v {
            Response::Vanished { earlier, uids } => Tree::Structure(if earlier { 24 } else { 23 }, vec![ranges(uids)]),
            Response::MailboxData(MailboxDatum::MetadataSolicited { mailbox, values }) => {
                let pair = |m: Metadata| {
                    Tree::Structure(17, vec![self.text(&m.entry), maybe(m.value, |v| self.text(&v))])
                };
                Tree::Structure(25, vec![self.text(&mailbox), Tree::List(values.into_iter().map(pair).collect())])
            }
            Response::MailboxData(MailboxDatum::MetadataUnsolicited { mailbox, values }) => {
                Tree::Structure(25, vec![self.text(&mailbox), Tree::List(values.iter().map(|v| self.text(v)).collect())])
            }
            other => unreachable!("{other:?}"),
        }
    }

    fn addresses(self, v: Option<Vec<Address<'_>>>) -> Tree {
        let one = |a: Address<'_>| {
            Tree::Structure(11, vec![self.raws(a.name), self.raws(a.adl), self.raws(a.mailbox), self.raws(a.host)])
        };
        maybe(v, |v| Tree::List(v.into_iter().map(one).collect()))
    }

    fn envelope(self, v: Envelope<'_>) -> Tree {
        Tree::Structure(
            10,
            vec![
                self.raws(v.date),
                self.raws(v.subject),
                self.addresses(v.from),
                self.addresses(v.sender),
                self.addresses(v.reply_to),
                self.addresses(v.to),
                self.addresses(v.cc),
                self.addresses(v.bcc),
                self.raws(v.in_reply_to),
                self.raws(v.message_id),
            ],
        )
    }

    fn params(self, v: BodyParams<'_>) -> Tree {
        let pair = |(k, v): (Cow<'_, str>, Cow<'_, str>)| Tree::Structure(17, vec![self.text(&k), self.text(&v)]);
        maybe(v, |v| Tree::List(v.into_iter().map(pair).collect()))
    }

    fn disposition(self, v: Option<ContentDisposition<'_>>) -> Tree {
        maybe(v, |v| Tree::Structure(16, vec![self.text(&v.ty), self.params(v.params)]))
    }

    fn language(self, v: Option<Vec<Cow<'_, str>>>) -> Tree {
        maybe(v, |v| Tree::List(v.iter().map(|s| self.text(s)).collect()))
    }

    fn encoding(self, v: ContentEncoding<'_>) -> Tree {
        match v {
            ContentEncoding::SevenBit => Tree::Encoding(1),
            ContentEncoding::EightBit => Tree::Encoding(2),
            ContentEncoding::Binary => Tree::Encoding(3),
            ContentEncoding::Base64 => Tree::Encoding(4),
            ContentEncoding::QuotedPrintable => Tree::Encoding(5),
            ContentEncoding::Other(s) => self.text(&s),
        }
    }

    fn extension(self, v: BodyExtension<'_>) -> Tree {
        match v {
            BodyExtension::Num(n) => Tree::Number(n as u64),
            BodyExtension::Str(s) => self.texts(s),
            BodyExtension::List(l) => Tree::List(l.into_iter().map(|v| self.extension(v)).collect()),
        }
    }

    fn body(self, v: BodyStructure<'_>) -> Tree {
        let number = |n: u32| Tree::Number(n as u64);
        match v {
            BodyStructure::Basic { common: c, other: o, extension } => Tree::Structure(
                12,
                vec![
                    self.text(&c.ty.ty),
                    self.text(&c.ty.subtype),
                    self.params(c.ty.params),
                    self.texts(o.id),
                    self.texts(o.description),
                    self.encoding(o.transfer_encoding),
                    number(o.octets),
                    self.texts(o.md5),
                    self.disposition(c.disposition),
                    self.language(c.language),
                    self.texts(c.location),
                    maybe(extension, |e| self.extension(e)),
                ],
            ),
            BodyStructure::Text { common: c, other: o, lines, extension } => {
                assert_eq!(c.ty.ty, "TEXT");
                Tree::Structure(
                    13,
                    vec![
                        self.text(&c.ty.subtype),
                        self.params(c.ty.params),
                        self.texts(o.id),
                        self.texts(o.description),
                        self.encoding(o.transfer_encoding),
                        number(o.octets),
                        number(lines),
                        self.texts(o.md5),
                        self.disposition(c.disposition),
                        self.language(c.language),
                        self.texts(c.location),
                        maybe(extension, |e| self.extension(e)),
                    ],
                )
            }
            BodyStructure::Message { common: c, other: o, envelope, body, lines, extension } => {
                assert_eq!((&*c.ty.ty, &*c.ty.subtype), ("MESSAGE", "RFC822"));
                Tree::Structure(
                    14,
                    vec![
                        self.params(c.ty.params),
                        self.texts(o.id),
                        self.texts(o.description),
                        self.encoding(o.transfer_encoding),
                        number(o.octets),
                        self.envelope(envelope),
                        self.body(*body),
                        number(lines),
                        self.texts(o.md5),
                        self.disposition(c.disposition),
                        self.language(c.language),
                        self.texts(c.location),
                        maybe(extension, |e| self.extension(e)),
                    ],
                )
            }
            BodyStructure::Multipart { common: c, bodies, extension } => {
                assert_eq!(c.ty.ty, "MULTIPART");
                Tree::Structure(
                    15,
                    vec![
                        Tree::List(bodies.into_iter().map(|b| self.body(b)).collect()),
                        self.text(&c.ty.subtype),
                        self.params(c.ty.params),
                        self.disposition(c.disposition),
                        self.language(c.language),
                        self.texts(c.location),
                        maybe(extension, |e| self.extension(e)),
                    ],
                )
            }
        }
    }
}
