//! A small strict reader of XML, for tests. What it takes is well-formed: elements, attributes in double
//! quotes, text, comments and the five named escapes. Whatever else XML has it refuses.

/// An element, the text that stands in it directly, and the elements in it.
#[derive(Debug, Default, PartialEq)]
pub struct Element {
    pub name: String,
    pub attributes: Vec<(String, String)>,
    pub children: Vec<Element>,
    pub text: String,
}

impl Element {
    /// The value of an attribute.
    pub fn attribute(&self, name: &str) -> Option<&str> {
        self.attributes
            .iter()
            .find(|(key, _)| key == name)
            .map(|(_, value)| value.as_str())
    }

    /// This element and all in it, in the order of the text.
    pub fn all(&self) -> Vec<&Element> {
        let inner = self.children.iter().flat_map(Element::all);
        std::iter::once(self).chain(inner).collect()
    }
}

/// The one element that a text is.
pub fn parse(text: &str) -> Result<Element, String> {
    must(text.chars().all(allowed), "a forbidden character")?;
    let mut rest = text;
    between(&mut rest)?;
    let root = element(&mut rest)?;
    between(&mut rest)?;
    must(rest.is_empty(), "something after the root")?;
    Ok(root)
}

fn must(holds: bool, why_not: &str) -> Result<(), String> {
    holds.then_some(()).ok_or(why_not.into())
}

fn allowed(c: char) -> bool {
    matches!(c, '\t' | '\n' | '\r' | ' '..) && !matches!(c, '\u{fffe}' | '\u{ffff}')
}

fn take(rest: &mut &str, what: &str) -> bool {
    let after = rest.strip_prefix(what);
    *rest = after.unwrap_or(rest);
    after.is_some()
}

fn until<'a>(rest: &mut &'a str, end: &str) -> Result<&'a str, String> {
    let (part, after) = rest.split_once(end).ok_or(format!("no {end}"))?;
    *rest = after;
    Ok(part)
}

fn space(rest: &mut &str) -> bool {
    let trimmed = rest.trim_start_matches([' ', '\t', '\n', '\r']);
    let any = trimmed.len() < rest.len();
    *rest = trimmed;
    any
}

/// Space and comments, as they may stand around the root.
fn between(rest: &mut &str) -> Result<(), String> {
    while space(rest) || comment(rest)? {}
    Ok(())
}

fn comment(rest: &mut &str) -> Result<bool, String> {
    let begins = take(rest, "<!--");
    if begins {
        until(rest, "--")?;
        must(take(rest, ">"), "-- in a comment")?;
    }
    Ok(begins)
}

/// A name without a prefix: one that is not declared a browser refuses.
fn name(rest: &mut &str) -> Result<String, String> {
    let inner = |c: char| c.is_ascii_alphanumeric() || "_-.".contains(c);
    let (name, after) = rest.split_at(rest.find(|c| !inner(c)).unwrap_or(rest.len()));
    *rest = after;
    must(
        name.starts_with(|c: char| c.is_ascii_alphabetic() || c == '_'),
        "no name",
    )?;
    Ok(name.into())
}

/// Text with its escapes resolved.
fn plain(text: &str) -> Result<String, String> {
    let (mut rest, mut plain) = (text, String::new());
    while let Some((before, after)) = rest.split_once('&') {
        rest = after;
        plain.push_str(before);
        plain.push(match until(&mut rest, ";")? {
            "amp" => '&',
            "lt" => '<',
            "gt" => '>',
            "quot" => '"',
            "apos" => '\'',
            word => return Err(format!("no such escape: {word}")),
        });
    }
    Ok(plain + rest)
}

fn attribute(rest: &mut &str, element: &mut Element) -> Result<(), String> {
    let key = name(rest)?;
    must(take(rest, "=\""), "an attribute without a value in double quotes")?;
    let value = until(rest, "\"")?;
    must(!value.contains('<'), "< in an attribute")?;
    must(
        element.attribute(&key).is_none(),
        "an attribute that stands twice",
    )?;
    element.attributes.push((key, plain(value)?));
    Ok(())
}

fn element(rest: &mut &str) -> Result<Element, String> {
    must(take(rest, "<"), "no element")?;
    let name = name(rest)?;
    let mut element = Element {
        name,
        ..Element::default()
    };
    loop {
        let apart = space(rest);
        if take(rest, "/>") {
            return Ok(element);
        } else if take(rest, ">") {
            return content(rest, element);
        }
        must(apart, "no space before an attribute")?;
        attribute(rest, &mut element)?;
    }
}

fn content(rest: &mut &str, mut element: Element) -> Result<Element, String> {
    loop {
        let (text, after) = rest.split_at(rest.find('<').ok_or("an element that does not end")?);
        *rest = after;
        must(!text.contains("]]>"), "]]> in text")?;
        element.text += &plain(text)?;
        if take(rest, "</") {
            must(name(rest)? == element.name, "an end of another element")?;
            space(rest);
            must(take(rest, ">"), "something in an end")?;
            return Ok(element);
        } else if !comment(rest)? {
            element.children.push(self::element(rest)?);
        }
    }
}

#[cfg(test)]
mod tests;
