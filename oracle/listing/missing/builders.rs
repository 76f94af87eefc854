//! Missing from the listing; it builds commands, and no rule in scope reads any.
