// SPDX-License-Identifier: Apache-2.0
//! JSON, as far as the vectors have it: no fractions, no escapes, and numbers from 0 on.

use std::collections::BTreeMap;
use std::net::IpAddr;

#[derive(Clone, PartialEq, Debug)]
pub enum Json {
    Null,
    Bool(bool),
    Number(u64),
    Text(String),
    List(Vec<Json>),
    Object(BTreeMap<String, Json>),
}

pub fn object<const N: usize>(fields: [(&str, Json); N]) -> Json {
    Json::Object(fields.into_iter().map(|(name, it)| (name.into(), it)).collect())
}

pub fn kind<const N: usize>(name: &str, fields: [(&str, Json); N]) -> Json {
    let Json::Object(mut it) = object(fields) else { unreachable!() };
    it.insert("kind".into(), Json::Text(name.into()));
    Json::Object(it)
}

macro_rules! from_numbers {
    ($($number:ty)*) => {$(
        impl From<$number> for Json {
            fn from(it: $number) -> Self {
                Self::Number(it.into())
            }
        }
    )*};
}
from_numbers!(u8 u16 u32);

impl From<bool> for Json {
    fn from(it: bool) -> Self {
        Self::Bool(it)
    }
}

/// Bytes are hexadecimal.
impl From<&[u8]> for Json {
    fn from(it: &[u8]) -> Self {
        Self::Text(it.iter().fold(String::new(), |text, it| text + &format!("{it:02x}")))
    }
}

impl From<IpAddr> for Json {
    fn from(it: IpAddr) -> Self {
        match it {
            IpAddr::V4(it) => Self::from(&it.octets()[..]),
            IpAddr::V6(it) => Self::from(&it.octets()[..]),
        }
    }
}

impl Json {
    pub fn parse(text: &str) -> Self {
        let mut rest = text.as_bytes();
        let it = Self::value(&mut rest);
        assert!(rest.is_empty(), "{text}");
        it
    }

    fn value(rest: &mut &[u8]) -> Self {
        let first = rest[0];
        *rest = &rest[1..];
        match first {
            b'"' => {
                let end = rest.iter().position(|&it| it == b'"').unwrap();
                let text = String::from_utf8(rest[..end].to_vec()).unwrap();
                assert!(!text.contains('\\'));
                *rest = &rest[end + 1..];
                Self::Text(text)
            }
            b'[' => Self::List(Self::list(rest, b']', Self::value)),
            b'{' => Self::Object(
                Self::list(rest, b'}', |rest| {
                    let Self::Text(name) = Self::value(rest) else { panic!("no name") };
                    *rest = rest.strip_prefix(b":").unwrap();
                    (name, Self::value(rest))
                })
                .into_iter()
                .collect(),
            ),
            b'n' | b't' | b'f' => {
                *rest = &rest[if first == b'f' { 4 } else { 3 }..];
                if first == b'n' { Self::Null } else { Self::Bool(first == b't') }
            }
            _ => {
                let mut number = u64::from(first - b'0');
                while let Some(digit) = rest.first().filter(|it| it.is_ascii_digit()) {
                    number = 10 * number + u64::from(digit - b'0');
                    *rest = &rest[1..];
                }
                Self::Number(number)
            }
        }
    }

    fn list<T>(rest: &mut &[u8], end: u8, item: impl Fn(&mut &[u8]) -> T) -> Vec<T> {
        let mut items = Vec::new();
        while rest[0] != end {
            items.push(item(rest));
            *rest = rest.strip_prefix(b",").unwrap_or(rest);
        }
        *rest = &rest[1..];
        items
    }

    /// What an object has by a name.
    pub fn get(&self, name: &str) -> Option<&Self> {
        match self {
            Self::Object(it) => it.get(name),
            _ => None,
        }
    }

    /// The same; not null.
    pub fn some(&self, name: &str) -> Option<&Self> {
        self.get(name).filter(|it| **it != Self::Null)
    }

    #[track_caller]
    fn has(&self, name: &str) -> &Self {
        self.get(name).unwrap_or_else(|| panic!("{self:?} has no {name}"))
    }

    pub fn text(&self, name: &str) -> &str {
        match self.has(name) {
            Self::Text(it) => it,
            other => panic!("{other:?}"),
        }
    }

    pub fn kind(&self) -> &str {
        self.get("kind").map_or("", |_| self.text("kind"))
    }

    pub fn is(&self, name: &str) -> bool {
        *self.has(name) == Self::Bool(true)
    }

    pub fn as_number<T: TryFrom<u64>>(&self) -> T {
        match self {
            Self::Number(it) => T::try_from(*it).ok().unwrap(),
            other => panic!("{other:?}"),
        }
    }

    pub fn number<T: TryFrom<u64>>(&self, name: &str) -> T {
        self.has(name).as_number()
    }

    pub fn items(&self, name: &str) -> std::slice::Iter<'_, Self> {
        match self.has(name) {
            Self::List(it) => it.iter(),
            other => panic!("{other:?}"),
        }
    }

    pub fn numbers<T: TryFrom<u64>>(&self, name: &str) -> Vec<T> {
        self.items(name).map(Self::as_number).collect()
    }

    pub fn bytes(&self, name: &str) -> Vec<u8> {
        super::bytes(self.text(name))
    }

    /// Bytes that stay until the test ends.
    pub fn kept(&self, name: &str) -> &'static [u8] {
        self.bytes(name).leak()
    }

    pub fn kept_numbers(&self, name: &str) -> &'static [u8] {
        self.numbers::<u16>(name).iter().flat_map(|it| it.to_be_bytes()).collect::<Vec<_>>().leak()
    }

    /// Parameters or error causes, padded but for the last.
    pub fn kept_list(&self, name: &str, number: &str) -> &'static [u8] {
        let mut list = Vec::new();
        for it in self.items(name) {
            let value = it.bytes("value");
            list.resize(list.len().next_multiple_of(4), 0);
            list.extend(it.number::<u16>(number).to_be_bytes());
            list.extend(u16::try_from(4 + value.len()).unwrap().to_be_bytes());
            list.extend(value);
        }
        list.leak()
    }

    pub fn address(&self, name: &str) -> IpAddr {
        let it = self.bytes(name);
        <[u8; 4]>::try_from(&it[..])
            .map_or_else(|_| <[u8; 16]>::try_from(&it[..]).unwrap().into(), IpAddr::from)
    }

    pub fn counts(&self, name: &str) -> [u16; 3] {
        self.numbers(name).try_into().unwrap()
    }
}
