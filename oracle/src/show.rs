//! How inputs are printed.

/// Bytes as docs/DIFFERENCES.md writes them, nearly: printable ones as they are, others as \xNN, \r, \n, \t.
pub fn bytes(s: &[u8]) -> String {
    let mut out = String::new();
    let shown = if s.len() > 1000 { 30 } else { s.len() };
    for &b in &s[..shown] {
        match b {
            b'\r' => out.push_str("\\r"),
            b'\n' => out.push_str("\\n"),
            b'\t' => out.push_str("\\t"),
            b'\\' => out.push_str("\\\\"),
            32..=126 => out.push(b as char),
            _ => out.push_str(&format!("\\x{b:02x}")),
        }
    }
    if s.len() > shown {
        out.push_str(&format!("… ({} bytes)", s.len()));
    }
    out
}

pub fn hex(s: &[u8]) -> String {
    s.iter().map(|b| format!("{b:02x}")).collect()
}
