//! Missing from the listing; only whole response lines use it, which are out of scope. It refuses everything.

use nom::error::{make_error, ErrorKind};
use nom::IResult;

use crate::Response;

pub(crate) fn resp_id(i: &[u8]) -> IResult<&[u8], Response<'_>> {
    Err(nom::Err::Error(make_error(i, ErrorKind::Fail)))
}
