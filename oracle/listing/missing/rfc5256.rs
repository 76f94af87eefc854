//! Missing from the listing; only whole response lines use it, which are out of scope. It refuses everything.

use nom::error::{make_error, ErrorKind};
use nom::IResult;

use crate::rfc3501::MailboxDatum;

pub(crate) fn mailbox_data_sort(i: &[u8]) -> IResult<&[u8], MailboxDatum<'_>> {
    Err(nom::Err::Error(make_error(i, ErrorKind::Fail)))
}
