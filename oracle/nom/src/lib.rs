//! A stand-in for nom 8: its names and its `Parser` trait, over the real streaming primitives of nom 7.1.1.
//!
//! Nothing here decides what is read: every function hands its parsers to nom 7's function of the same name. Two do more, and
//! say so: `escaped`, which in nom 8 refuses to be empty, and `take`, which notes that it was the one to ask for more bytes.
//! ../README.md has the list of what differs between nom 7 and 8.

pub use nom7::{Err, IResult, Needed};

pub mod error {
    pub use nom7::error::{make_error, Error, ErrorKind, FromExternalError, ParseError};
}

use error::ParseError;

/// nom 8's trait: what a parser gives is an associated type, and tuples are parsers.
pub trait Parser<I> {
    type Output;
    type Error: ParseError<I>;

    fn parse(&mut self, i: I) -> IResult<I, Self::Output, Self::Error>;
}

impl<I, O, E: ParseError<I>, F: FnMut(I) -> IResult<I, O, E>> Parser<I> for F {
    type Output = O;
    type Error = E;

    fn parse(&mut self, i: I) -> IResult<I, O, E> {
        self(i)
    }
}

/// What `alt` returns, as in nom 8.
pub struct Choice<L>(L);

macro_rules! tuples {
    ($(($($p:ident)+))+) => {$(
        #[allow(non_snake_case)]
        impl<I: Clone, E: ParseError<I>, $($p: Parser<I, Error = E>),+> Parser<I> for ($($p,)+) {
            type Output = ($($p::Output,)+);
            type Error = E;

            fn parse(&mut self, i: I) -> IResult<I, Self::Output, E> {
                let ($($p,)+) = self;
                nom7::sequence::tuple(($(|i: I| $p.parse(i),)+))(i)
            }
        }
    )+};
}

macro_rules! choices {
    ($(($($p:ident)+))+) => {$(
        #[allow(non_snake_case)]
        impl<I: Clone, O, E: ParseError<I>, $($p: Parser<I, Output = O, Error = E>),+> Parser<I> for Choice<($($p,)+)> {
            type Output = O;
            type Error = E;

            fn parse(&mut self, i: I) -> IResult<I, O, E> {
                let ($($p,)+) = &mut self.0;
                nom7::branch::alt(($(|i: I| $p.parse(i),)+))(i)
            }
        }
    )+};
}

macro_rules! prefixes {
    ($(($($p:ident)+))+) => {
        tuples! { $(($($p)+))+ }
        choices! { $(($($p)+))+ }
    };
}

tuples! { (P1) }
prefixes! {
    (P1 P2)
    (P1 P2 P3)
    (P1 P2 P3 P4)
    (P1 P2 P3 P4 P5)
    (P1 P2 P3 P4 P5 P6)
    (P1 P2 P3 P4 P5 P6 P7)
    (P1 P2 P3 P4 P5 P6 P7 P8)
    (P1 P2 P3 P4 P5 P6 P7 P8 P9)
    (P1 P2 P3 P4 P5 P6 P7 P8 P9 P10)
    (P1 P2 P3 P4 P5 P6 P7 P8 P9 P10 P11)
    (P1 P2 P3 P4 P5 P6 P7 P8 P9 P10 P11 P12)
    (P1 P2 P3 P4 P5 P6 P7 P8 P9 P10 P11 P12 P13)
    (P1 P2 P3 P4 P5 P6 P7 P8 P9 P10 P11 P12 P13 P14)
    (P1 P2 P3 P4 P5 P6 P7 P8 P9 P10 P11 P12 P13 P14 P15)
    (P1 P2 P3 P4 P5 P6 P7 P8 P9 P10 P11 P12 P13 P14 P15 P16)
    (P1 P2 P3 P4 P5 P6 P7 P8 P9 P10 P11 P12 P13 P14 P15 P16 P17)
    (P1 P2 P3 P4 P5 P6 P7 P8 P9 P10 P11 P12 P13 P14 P15 P16 P17 P18)
    (P1 P2 P3 P4 P5 P6 P7 P8 P9 P10 P11 P12 P13 P14 P15 P16 P17 P18 P19)
    (P1 P2 P3 P4 P5 P6 P7 P8 P9 P10 P11 P12 P13 P14 P15 P16 P17 P18 P19 P20)
    (P1 P2 P3 P4 P5 P6 P7 P8 P9 P10 P11 P12 P13 P14 P15 P16 P17 P18 P19 P20 P21)
}

pub mod branch {
    use super::Choice;

    pub fn alt<L>(l: L) -> Choice<L> {
        Choice(l)
    }
}

pub mod bytes {
    pub mod streaming {
        use crate::error::{ErrorKind, ParseError};
        use crate::{Err, IResult, Parser};
        use nom7::bytes::streaming as seven;
        use nom7::ToUsize;
        use std::cell::Cell;

        pub use seven::{tag, tag_no_case, take_while, take_while1};

        thread_local! {
            static ASKED: Cell<bool> = const { Cell::new(false) };
        }

        /// Whether `take` said Incomplete on this thread since the last call of this function. An Incomplete ends a parse
        /// (no combinator catches it), so after one that ended so, this tells a literal's missing bytes from all others.
        pub fn take_asked() -> bool {
            ASKED.with(|a| a.replace(false))
        }

        /// nom 7's, for byte slices; it only notes an Incomplete.
        pub fn take<'a, C: ToUsize, E: ParseError<&'a [u8]>>(count: C) -> impl Fn(&'a [u8]) -> IResult<&'a [u8], &'a [u8], E> {
            let take = seven::take(count);
            move |i| {
                let r = take(i);
                if let Err(Err::Incomplete(_)) = r {
                    ASKED.with(|a| a.set(true));
                }
                r
            }
        }

        /// nom 7's, and as in nom 8 an Error where nothing was read.
        pub fn escaped<'a, E, F, G>(
            mut normal: F,
            control: char,
            mut escapable: G,
        ) -> impl FnMut(&'a [u8]) -> IResult<&'a [u8], &'a [u8], E>
        where
            E: ParseError<&'a [u8]>,
            F: Parser<&'a [u8], Error = E>,
            G: Parser<&'a [u8], Error = E>,
        {
            let mut escaped = seven::escaped(move |i| normal.parse(i), control, move |i| escapable.parse(i));
            move |i| match escaped(i) {
                Ok((_, out)) if out.is_empty() => Err(Err::Error(E::from_error_kind(i, ErrorKind::Escaped))),
                r => r,
            }
        }
    }
}

pub mod character {
    pub mod streaming {
        pub use nom7::character::streaming::{char, digit1, one_of, space0, space1};
    }

    /// Only rfc4314.rs uses these; no rule in scope does.
    pub mod complete {
        pub use nom7::character::complete::{space0, space1};
    }
}

pub mod combinator {
    use crate::error::{FromExternalError, ParseError};
    use crate::Parser;
    use nom7::combinator as seven;
    use nom7::{Offset, Slice};
    use std::ops::RangeTo;

    pub fn map<I, O, E: ParseError<I>, F, G>(mut parser: F, f: G) -> impl Parser<I, Output = O, Error = E>
    where
        F: Parser<I, Error = E>,
        G: FnMut(<F as Parser<I>>::Output) -> O,
    {
        seven::map(move |i| parser.parse(i), f)
    }

    pub fn map_res<I: Clone, O, E, E2, F, G>(mut parser: F, f: G) -> impl Parser<I, Output = O, Error = E>
    where
        E: ParseError<I> + FromExternalError<I, E2>,
        F: Parser<I, Error = E>,
        G: FnMut(<F as Parser<I>>::Output) -> Result<O, E2>,
    {
        seven::map_res(move |i| parser.parse(i), f)
    }

    pub fn opt<I: Clone, F: Parser<I>>(
        mut f: F,
    ) -> impl Parser<I, Output = Option<<F as Parser<I>>::Output>, Error = <F as Parser<I>>::Error> {
        seven::opt(move |i| f.parse(i))
    }

    pub fn peek<I: Clone, F: Parser<I>>(
        mut f: F,
    ) -> impl Parser<I, Output = <F as Parser<I>>::Output, Error = <F as Parser<I>>::Error> {
        seven::peek(move |i| f.parse(i))
    }

    pub fn recognize<I, E: ParseError<I>, F>(mut f: F) -> impl Parser<I, Output = I, Error = E>
    where
        I: Clone + Offset + Slice<RangeTo<usize>>,
        F: Parser<I, Error = E>,
    {
        seven::recognize(move |i| f.parse(i))
    }

    pub fn value<I, O: Clone, E: ParseError<I>, F>(val: O, mut f: F) -> impl Parser<I, Output = O, Error = E>
    where
        F: Parser<I, Error = E>,
    {
        seven::value(val, move |i| f.parse(i))
    }
}

pub mod multi {
    use crate::Parser;
    use nom7::multi as seven;
    use nom7::InputLength;

    pub fn many0<I: Clone + InputLength, F: Parser<I>>(
        mut f: F,
    ) -> impl Parser<I, Output = Vec<<F as Parser<I>>::Output>, Error = <F as Parser<I>>::Error> {
        seven::many0(move |i| f.parse(i))
    }

    pub fn many1<I: Clone + InputLength, F: Parser<I>>(
        mut f: F,
    ) -> impl Parser<I, Output = Vec<<F as Parser<I>>::Output>, Error = <F as Parser<I>>::Error> {
        seven::many1(move |i| f.parse(i))
    }

    pub fn separated_list0<I, E, F, G>(
        mut sep: G,
        mut f: F,
    ) -> impl Parser<I, Output = Vec<<F as Parser<I>>::Output>, Error = E>
    where
        I: Clone + InputLength,
        E: crate::error::ParseError<I>,
        F: Parser<I, Error = E>,
        G: Parser<I, Error = E>,
    {
        seven::separated_list0(move |i| sep.parse(i), move |i| f.parse(i))
    }

    pub fn separated_list1<I, E, F, G>(
        mut sep: G,
        mut f: F,
    ) -> impl Parser<I, Output = Vec<<F as Parser<I>>::Output>, Error = E>
    where
        I: Clone + InputLength,
        E: crate::error::ParseError<I>,
        F: Parser<I, Error = E>,
        G: Parser<I, Error = E>,
    {
        seven::separated_list1(move |i| sep.parse(i), move |i| f.parse(i))
    }
}

pub mod sequence {
    use crate::error::ParseError;
    use crate::Parser;
    use nom7::sequence as seven;

    pub fn delimited<I, O, E: ParseError<I>, F, G, H>(
        mut first: F,
        mut second: G,
        mut third: H,
    ) -> impl Parser<I, Output = O, Error = E>
    where
        F: Parser<I, Error = E>,
        G: Parser<I, Output = O, Error = E>,
        H: Parser<I, Error = E>,
    {
        seven::delimited(move |i| first.parse(i), move |i| second.parse(i), move |i| third.parse(i))
    }

    pub fn pair<I, O1, O2, E: ParseError<I>, F, G>(mut first: F, mut second: G) -> impl Parser<I, Output = (O1, O2), Error = E>
    where
        F: Parser<I, Output = O1, Error = E>,
        G: Parser<I, Output = O2, Error = E>,
    {
        seven::pair(move |i| first.parse(i), move |i| second.parse(i))
    }

    pub fn preceded<I, O, E: ParseError<I>, F, G>(mut first: F, mut second: G) -> impl Parser<I, Output = O, Error = E>
    where
        F: Parser<I, Error = E>,
        G: Parser<I, Output = O, Error = E>,
    {
        seven::preceded(move |i| first.parse(i), move |i| second.parse(i))
    }

    pub fn separated_pair<I, O1, O2, E: ParseError<I>, F, G, H>(
        mut first: F,
        mut sep: G,
        mut second: H,
    ) -> impl Parser<I, Output = (O1, O2), Error = E>
    where
        F: Parser<I, Output = O1, Error = E>,
        G: Parser<I, Error = E>,
        H: Parser<I, Output = O2, Error = E>,
    {
        seven::separated_pair(move |i| first.parse(i), move |i| sep.parse(i), move |i| second.parse(i))
    }

    pub fn terminated<I, O, E: ParseError<I>, F, G>(mut first: F, mut second: G) -> impl Parser<I, Output = O, Error = E>
    where
        F: Parser<I, Output = O, Error = E>,
        G: Parser<I, Error = E>,
    {
        seven::terminated(move |i| first.parse(i), move |i| second.parse(i))
    }
}
