//! The listed function of each rule in scope, as it is.

use nom::IResult;

use crate::{AttributeValue, BodyStructure, Envelope, Response, ResponseCode};

pub use crate::core::{astring, literal, nstring, number, number_64, quoted, sequence_set, string, text};
pub use crate::rfc3501::body::{msg_att_body_section, section};
pub use crate::rfc4315::UidSetMember;
pub use crate::rfc5464::Metadata;

type Read<'a, T> = IResult<&'a [u8], T>;

pub fn uid_set(i: &[u8]) -> Read<'_, Vec<UidSetMember>> {
    crate::rfc4315::uid_set(i)
}

pub fn entry_name(i: &[u8]) -> Read<'_, &[u8]> {
    crate::rfc5464::entry_name(i)
}

pub fn envelope(i: &[u8]) -> Read<'_, Envelope<'_>> {
    Envelope::parse(i)
}

pub fn body(i: &[u8]) -> Read<'_, BodyStructure<'_>> {
    BodyStructure::parse(i)
}

pub fn resp_text_code_append_uid(i: &[u8]) -> Read<'_, ResponseCode<'_>> {
    crate::rfc4315::resp_text_code_append_uid(i)
}

pub fn resp_text_code_copy_uid(i: &[u8]) -> Read<'_, ResponseCode<'_>> {
    crate::rfc4315::resp_text_code_copy_uid(i)
}

pub fn resp_text_code_uid_not_sticky(i: &[u8]) -> Read<'_, ResponseCode<'_>> {
    crate::rfc4315::resp_text_code_uid_not_sticky(i)
}

pub fn resp_vanished(i: &[u8]) -> Read<'_, Response<'_>> {
    crate::rfc7162::resp_vanished(i)
}

pub fn resp_text_code_highest_mod_seq(i: &[u8]) -> Read<'_, ResponseCode<'_>> {
    crate::rfc4551::resp_text_code_highest_mod_seq(i)
}

pub fn msg_att_mod_seq(i: &[u8]) -> Read<'_, AttributeValue<'_>> {
    crate::rfc4551::msg_att_mod_seq(i)
}

pub fn metadata_solicited(i: &[u8]) -> Read<'_, Response<'_>> {
    crate::rfc5464::metadata_solicited(i)
}

pub fn metadata_unsolicited(i: &[u8]) -> Read<'_, Response<'_>> {
    crate::rfc5464::metadata_unsolicited(i)
}

pub fn msg_att_envelope(i: &[u8]) -> Read<'_, AttributeValue<'_>> {
    crate::rfc3501::msg_att_envelope(i)
}

pub fn msg_att_body_structure(i: &[u8]) -> Read<'_, AttributeValue<'_>> {
    crate::rfc3501::body_structure::msg_att_body_structure(i)
}
