//! A small and strict reader of XML: one element with attributes, elements and text, well-formed or refused. There are
//! no document types, processing instructions or sections of raw text here.

/// An element. What is no element in it is text, its references resolved.
#[derive(Clone, Debug, PartialEq, Eq)]
pub struct Element {
    pub name: String,
    pub attributes: Vec<(String, String)>,
    pub inner: Vec<Node>,
}

#[derive(Clone, Debug, PartialEq, Eq)]
pub enum Node {
    Element(Element),
    Text(String),
}

impl Element {
    pub fn attribute(&self, name: &str) -> Option<&str> {
        let found = self.attributes.iter().find(|(other, _)| other == name);
        found.map(|(_, value)| value.as_str())
    }

    /// The elements right inside.
    pub fn elements(&self) -> impl Iterator<Item = &Element> {
        self.inner.iter().filter_map(|node| match node {
            Node::Element(element) => Some(element),
            Node::Text(_) => None,
        })
    }

    /// The text, if there is nothing but one.
    pub fn text(&self) -> Option<&str> {
        match self.inner.as_slice() {
            [Node::Text(text)] => Some(text),
            _ => None,
        }
    }
}

/// Reads a text that is one element, with white space around it and perhaps an XML declaration before it.
pub fn read(text: &[u8]) -> Result<Element, String> {
    let text = std::str::from_utf8(text).map_err(|_| "it is no UTF-8".to_string())?;
    if let Some(odd) = text.chars().find(|&c| !allowed(c)) {
        return Err(format!("{odd:?} is no character of XML"));
    }
    let mut reader = Reader { text, at: 0 };
    let element = reader.document();
    element.map_err(|why| format!("at byte {}: {why}", reader.at))
}

/// What may stand in a document (XML 1.0, 2.2).
fn allowed(c: char) -> bool {
    matches!(c, '\t' | '\n' | '\r' | '\u{20}'..='\u{FFFD}' | '\u{10000}'..)
}

struct Reader<'a> {
    text: &'a str,
    at: usize,
}

impl<'a> Reader<'a> {
    fn rest(&self) -> &'a str {
        &self.text[self.at..]
    }

    /// Whether the text goes on so; if it does, that is read.
    fn eat(&mut self, words: &str) -> bool {
        let found = self.rest().starts_with(words);
        if found {
            self.at += words.len();
        }
        found
    }

    fn expect(&mut self, words: &str) -> Result<(), String> {
        match self.eat(words) {
            true => Ok(()),
            false => Err(format!("{words:?} is missing")),
        }
    }

    /// White space; whether there was any.
    fn space(&mut self) -> bool {
        let rest = self.rest();
        let blank = rest.len() - rest.trim_start_matches([' ', '\t', '\n', '\r']).len();
        self.at += blank;
        blank > 0
    }

    /// The text up to a mark, which is not read.
    fn until(&mut self, mark: char) -> Result<&'a str, String> {
        let found = self.rest().find(mark);
        let length = found.ok_or_else(|| format!("{mark:?} is missing"))?;
        let words = &self.rest()[..length];
        self.at += length;
        Ok(words)
    }

    fn document(&mut self) -> Result<Element, String> {
        if self.eat("<?xml ") {
            self.until('?')?;
            self.expect("?>")?;
        }
        self.space();
        let element = self.element()?;
        self.space();
        match self.rest() {
            "" => Ok(element),
            _ => Err("something stands behind the element".to_string()),
        }
    }

    fn name(&mut self) -> Result<String, String> {
        let inner = |c: char| c.is_ascii_alphanumeric() || "_:.-".contains(c);
        let rest = self.rest();
        let length = rest.find(|c| !inner(c)).unwrap_or(rest.len());
        let name = &rest[..length];
        let begins = |c: char| c.is_ascii_alphabetic() || c == '_' || c == ':';
        if !name.starts_with(begins) {
            return Err("a name is missing".to_string());
        }
        self.at += length;
        Ok(name.to_string())
    }

    fn element(&mut self) -> Result<Element, String> {
        self.expect("<")?;
        let name = self.name()?;
        let attributes = self.attributes()?;
        let inner = match self.eat("/>") {
            true => Vec::new(),
            false => {
                self.expect(">")?;
                self.inner(&name)?
            }
        };
        Ok(Element {
            name,
            attributes,
            inner,
        })
    }

    fn attributes(&mut self) -> Result<Vec<(String, String)>, String> {
        let mut attributes: Vec<(String, String)> = Vec::new();
        while self.space() && !self.rest().starts_with(['>', '/']) {
            let name = self.name()?;
            self.space();
            self.expect("=")?;
            self.space();
            let mark = match self.rest().chars().next() {
                Some(mark @ ('"' | '\'')) => mark,
                _ => return Err("a value without quotation marks".to_string()),
            };
            self.at += 1;
            let value = resolved(self.until(mark)?)?;
            self.at += 1;
            if attributes.iter().any(|(other, _)| *other == name) {
                return Err(format!("{name} is there twice"));
            }
            attributes.push((name, value));
        }
        Ok(attributes)
    }

    /// All up to the end of the element of that name, which is read too.
    fn inner(&mut self, name: &str) -> Result<Vec<Node>, String> {
        let mut inner = Vec::new();
        loop {
            let text = self.until('<')?;
            if !text.is_empty() {
                inner.push(Node::Text(resolved(text)?));
            }
            if self.eat("</") {
                let ended = self.name()?;
                self.space();
                self.expect(">")?;
                return match ended == name {
                    true => Ok(inner),
                    false => Err(format!("</{ended}> where </{name}> is due")),
                };
            }
            if self.eat("<!--") {
                let length = self.rest().find("--").ok_or("a comment without an end")?;
                self.at += length;
                self.expect("-->")?;
                continue;
            }
            inner.push(Node::Element(self.element()?));
        }
    }
}

/// Text with its references resolved. A bare `<` or `&` and the end of a section of raw text may not stand in it.
fn resolved(text: &str) -> Result<String, String> {
    if text.contains('<') || text.contains("]]>") {
        return Err(format!("{text:?} is no text"));
    }
    let mut parts = text.split('&');
    let mut whole = parts.next().unwrap_or_default().to_string();
    for part in parts {
        let (reference, rest) = part.split_once(';').ok_or("a bare &")?;
        whole.push(match reference {
            "lt" => '<',
            "gt" => '>',
            "amp" => '&',
            "apos" => '\'',
            "quot" => '"',
            _ => character(reference).ok_or_else(|| format!("&{reference}; is unknown"))?,
        });
        whole.push_str(rest);
    }
    Ok(whole)
}

/// The character that `#65` or `#x41` names.
fn character(reference: &str) -> Option<char> {
    let number = reference.strip_prefix('#')?;
    let number = match number.strip_prefix('x') {
        Some(digits) => u32::from_str_radix(digits, 16),
        None => number.parse(),
    };
    char::from_u32(number.ok()?).filter(|&c| allowed(c))
}

#[cfg(test)]
mod tests {
    use super::*;

    #[test]
    fn elements_attributes_and_text_are_read() {
        let text = "<?xml version=\"1.0\"?>\n<a b='1' c = \"&lt;x&#65;&#x42;\"><d/>t&amp;u<!-- no --><e\n>v</e ></a>\n";
        let a = read(text.as_bytes()).expect("it is well-formed");
        assert_eq!(a.attribute("b"), Some("1"));
        assert_eq!(a.attribute("c"), Some("<xAB"));
        assert_eq!(a.attribute("d"), None);
        let names: Vec<&str> = a.elements().map(|element| element.name.as_str()).collect();
        assert_eq!(names, ["d", "e"]);
        assert_eq!(a.inner[1], Node::Text("t&u".to_string()));
        assert_eq!(a.elements().last().and_then(Element::text), Some("v"));
    }

    #[test]
    fn what_is_not_well_formed_is_refused() {
        let bad = "a;<a>;<a;</a>;<a></b>;<a><b></a></b>;<a/><b/>;<a/>c;<a b/>;<a b=1/>;<a b='1/>;\
            <a b='1'c='2'/>;<a b='1' b='2'/>;<a b='<'/>;<a b='&'/>;<a>&</a>;<a>&nbsp</a>;<a>]]></a>;\
            <a>\u{1}</a>;< a/>;<1/>;<a><!-- -- --></a>;<a><![CDATA[x]]></a>;<a / >";
        let references = ["<a>&nbsp;</a>", "<a>&#0;</a>", ""];
        for text in bad.split(';').chain(references) {
            for text in [text, &text.replace('\'', "\"")] {
                assert!(read(text.as_bytes()).is_err(), "{text:?}");
            }
        }
        assert!(read(b"<a>\xFF</a>").is_err());
    }
}
