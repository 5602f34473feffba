// Names of marks, and properties as they are written.
use crate::refusal::Refusal;

pub struct Names<'a>(Vec<&'a [u8]>);

impl<'a> Names<'a> {
    // As many different names as there are marks.
    pub fn read(list: &'a [u8], marks: u8) -> Result<Names<'a>, Refusal> {
        let mut names: Vec<&[u8]> = Vec::with_capacity(marks as usize);
        if marks == 0 {
            return if list.is_empty() { Ok(Names(names)) } else { Err(Refusal::NameList) };
        }
        for name in list.split(|&b| b == b',') {
            let spelled = (1..=8).contains(&name.len()) && name.iter().all(u8::is_ascii_lowercase);
            if !spelled || names.contains(&name) || names.len() == marks as usize {
                return Err(Refusal::NameList);
            }
            names.push(name);
        }
        if names.len() == marks as usize {
            Ok(Names(names))
        } else {
            Err(Refusal::NameList)
        }
    }

    fn mark(&self, name: &[u8]) -> Option<u8> {
        self.0.iter().position(|&n| n == name).map(|k| k as u8)
    }
}

#[derive(Clone, Copy, PartialEq, Eq)]
pub enum Quantifier {
    Some,
    Every,
}

#[derive(Clone, Copy, PartialEq, Eq)]
pub enum Joint {
    And,
    Or,
}

#[derive(Clone, Copy, PartialEq, Eq)]
pub enum Path {
    Until,
    Release,
}

pub enum Property {
    Constant(bool),
    Mark(u8),
    Not(Box<Property>),
    Join(Joint, Box<Property>, Box<Property>),
    Next(Quantifier, Box<Property>),
    Path(Path, Quantifier, Box<Property>, Box<Property>),
}

#[derive(Clone, Copy)]
enum Unary {
    Not,
    Next(Quantifier),
    Finally(Quantifier),
    Globally(Quantifier),
}

#[derive(Clone, Copy)]
enum Token<'a> {
    Name(&'a [u8]),
    Constant(bool),
    Unary(Unary),
    Round,
    Square(Quantifier),
    Joint(Joint),
    Path(Path),
    CloseRound,
    CloseSquare,
    End,
}

struct Reader<'a> {
    names: &'a Names<'a>,
    text: &'a [u8],
    at: usize,
}

impl<'a> Reader<'a> {
    // The next token and its position.
    fn next(&mut self) -> Result<(usize, Token<'a>), Refusal> {
        let at = self.at;
        let Some(&byte) = self.text.get(at) else {
            return Ok((at, Token::End));
        };
        self.at += 1;
        let token = match byte {
            b'a'..=b'z' => {
                let rest = &self.text[at..];
                let end = rest.iter().position(|b| !b.is_ascii_lowercase());
                let name = &rest[..end.unwrap_or(rest.len())];
                self.at = at + name.len();
                Token::Name(name)
            }
            b'0' => Token::Constant(false),
            b'1' => Token::Constant(true),
            b'!' => Token::Unary(Unary::Not),
            b'(' => Token::Round,
            b'&' => Token::Joint(Joint::And),
            b'|' => Token::Joint(Joint::Or),
            b'U' => Token::Path(Path::Until),
            b'R' => Token::Path(Path::Release),
            b')' => Token::CloseRound,
            b']' => Token::CloseSquare,
            b'E' => self.complete(Quantifier::Some)?,
            b'A' => self.complete(Quantifier::Every)?,
            _ => return Err(Refusal::NoToken(at)),
        };
        Ok((at, token))
    }

    // The token that a capital begins.
    fn complete(&mut self, quantifier: Quantifier) -> Result<Token<'a>, Refusal> {
        let token = match self.text.get(self.at) {
            Some(b'X') => Token::Unary(Unary::Next(quantifier)),
            Some(b'F') => Token::Unary(Unary::Finally(quantifier)),
            Some(b'G') => Token::Unary(Unary::Globally(quantifier)),
            Some(b'[') => Token::Square(quantifier),
            _ => return Err(Refusal::NoToken(self.at)),
        };
        self.at += 1;
        Ok(token)
    }

    fn property(&mut self) -> Result<Box<Property>, Refusal> {
        let (at, token) = self.next()?;
        Ok(Box::new(match token {
            Token::Name(name) => match self.names.mark(name) {
                Some(mark) => Property::Mark(mark),
                None => return Err(Refusal::UnknownName(at)),
            },
            Token::Constant(value) => Property::Constant(value),
            Token::Unary(unary) => {
                let p = self.property()?;
                match unary {
                    Unary::Not => Property::Not(p),
                    Unary::Next(quantifier) => Property::Next(quantifier, p),
                    Unary::Finally(quantifier) => {
                        let all = Box::new(Property::Constant(true));
                        Property::Path(Path::Until, quantifier, all, p)
                    }
                    Unary::Globally(quantifier) => {
                        let none = Box::new(Property::Constant(false));
                        Property::Path(Path::Release, quantifier, none, p)
                    }
                }
            }
            Token::Round => {
                let p = self.property()?;
                let joint = match self.next()? {
                    (_, Token::Joint(joint)) => joint,
                    (at, _) => return Err(Refusal::Grammar(at)),
                };
                let q = self.property()?;
                match self.next()? {
                    (_, Token::CloseRound) => Property::Join(joint, p, q),
                    (at, _) => return Err(Refusal::Grammar(at)),
                }
            }
            Token::Square(quantifier) => {
                let p = self.property()?;
                let path = match self.next()? {
                    (_, Token::Path(path)) => path,
                    (at, _) => return Err(Refusal::Grammar(at)),
                };
                let q = self.property()?;
                match self.next()? {
                    (_, Token::CloseSquare) => Property::Path(path, quantifier, p, q),
                    (at, _) => return Err(Refusal::Grammar(at)),
                }
            }
            _ => return Err(Refusal::Grammar(at)),
        }))
    }
}

// The property that a text writes.
pub fn read(names: &Names<'_>, text: &[u8]) -> Result<Box<Property>, Refusal> {
    if text.is_empty() || text.len() > 255 {
        return Err(Refusal::TextLength);
    }
    let mut reader = Reader { names, text, at: 0 };
    let property = reader.property()?;
    match reader.next()? {
        (_, Token::End) => Ok(property),
        (at, _) => Err(Refusal::Grammar(at)),
    }
}
