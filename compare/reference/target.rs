//! The target of a request line: origin-form, `*`, and absolute-form (RFC 9112, section 3.2).

use super::items::*;
use super::message::*;
use super::octets::*;

/// A target that is taken.
pub struct Target {
    /// In absolute-form: "authority is the target's".
    pub authority: Option<Span>,
    /// The target's own bytes of the path.
    pub path: Span,
    /// What is put before them.
    pub before: &'static str,
}

/// "http or https in any case of letters", then `://`: the scheme and the place behind.
fn absolute_form(target: &[u8]) -> Option<(Scheme, usize)> {
    for scheme in [Scheme::Http, Scheme::Https] {
        let start = format!("{}://", scheme.text());
        if target.len() >= start.len() && target[..start.len()].eq_ignore_ascii_case(start.as_bytes()) {
            return Some((scheme, start.len()));
        }
    }
    None
}

/// The target of this method's request under the connection's scheme, or the number of its refusal: "a target starting with
/// neither `/`, `*` nor such a scheme and `://` stays 4; ...; then target bytes 2; a bad target authority, empty and over 255
/// included, is 6 at the line; then path size 8, what is put before it counted; an unequal scheme is 14 at the line, last".
pub fn judge_target(input: &[u8], method: &[u8], target: Span, connection: Scheme, items: Items) -> Result<Target, u32> {
    let bytes = target.of(input);
    let Some((scheme, start)) = absolute_form(bytes).filter(|_| items.has(Item::Target)) else {
        return match judge_path(method, bytes, items) {
            Some(number) => Err(number),
            None => Ok(Target { authority: None, path: target, before: "" }),
        };
    };
    if !all_of(bytes, is_path) {
        return Err(SYNTAX);
    }
    // The authority ends at the first `/` or `?`, or with the target (S14).
    let end = start + bytes[start..].iter().take_while(|&&b| b != b'/' && b != b'?').count();
    if !good_host(&bytes[start..end]) {
        return Err(HOST);
    }
    // "An absolute target without a path means `/`, and a query directly after the authority is put behind that slash; for
    // OPTIONS with neither path nor query it means `*`."
    let before = match bytes.get(end) {
        Some(b'/') => "",
        None if method == b"OPTIONS" => "*",
        _ => "/",
    };
    if before.len() + bytes.len() - end > PATH_MOST {
        return Err(SIZE);
    }
    if scheme != connection {
        return Err(OTHER_SCHEME);
    }
    let place = |at: usize| target.start + at;
    Ok(Target { authority: Some(Span::new(place(start), place(end))), path: Span::new(place(end), place(bytes.len())), before })
}
