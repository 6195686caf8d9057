//! Octets of a frame that are read from the start of a structure to its end, and where that structure stands.

/// The layout broke: refusal 1, in this structure, which starts at this offset (document 02, T-06).
#[derive(Clone, Copy, Debug, PartialEq)]
pub struct Broken {
    pub kind: Kind,
    pub at: usize,
}

#[derive(Clone, Copy, Debug, PartialEq)]
pub enum Kind {
    Header,
    Payload,
    Policy,
    Bag,
    Selector,
    Transform,
    Attribute,
}

pub type Read<T> = Result<T, Broken>;

/// An attribute's value (RFC 7296, section 3.3.5): 2 octets in the short format (TV), a counted part of the frame in the other (TLV).
pub enum Value<'f> {
    Short(u16),
    Long(&'f [u8]),
}

pub fn short(value: Value) -> Option<u16> {
    match value {
        Value::Short(number) => Some(number),
        Value::Long(_) => None,
    }
}

pub fn number_of_4_octets(value: Value) -> Option<u32> {
    match value {
        Value::Long(&[a, b, c, d]) => Some(u32::from_be_bytes([a, b, c, d])),
        _ => None,
    }
}

/// What is left to read of a structure, and where that stands in the frame. None where reading goes past the end.
#[derive(Clone, Copy)]
pub struct Octets<'f> {
    pub octets: &'f [u8],
    pub at: usize,
}

impl<'f> Octets<'f> {
    pub fn is_empty(&self) -> bool {
        self.octets.is_empty()
    }

    /// What starts here and breaks.
    pub fn broken(&self, kind: Kind) -> Broken {
        Broken { kind, at: self.at }
    }

    /// Of what stands here at least one octet is there.
    pub fn must_begin(&self, missing: Broken) -> Read<()> {
        if self.is_empty() {
            return Err(missing);
        }
        Ok(())
    }

    pub fn take(&mut self, count: usize) -> Option<&'f [u8]> {
        let (taken, rest) = self.octets.split_at_checked(count)?;
        *self = Octets { octets: rest, at: self.at + count };
        Some(taken)
    }

    pub fn number1(&mut self) -> Option<u8> {
        Some(self.take(1)?[0])
    }

    pub fn number2(&mut self) -> Option<u16> {
        let octets = self.take(2)?;
        Some(u16::from_be_bytes([octets[0], octets[1]]))
    }

    pub fn number4(&mut self) -> Option<u32> {
        let octets = self.take(4)?;
        Some(u32::from_be_bytes([octets[0], octets[1], octets[2], octets[3]]))
    }

    /// Reads the 2 octets of a length that counts `before` octets up to here too, and takes the rest of it.
    pub fn rest_of_length(&mut self, before: usize) -> Option<Octets<'f>> {
        let length = self.number2()? as usize;
        let at = self.at;
        Some(Octets { octets: self.take(length.checked_sub(before)?)?, at })
    }

    /// Structures one after the other to the end.
    pub fn each<T>(mut self, read: fn(&mut Octets<'f>) -> Read<T>) -> Read<Vec<T>> {
        let mut all = Vec::new();
        while !self.is_empty() {
            all.push(read(&mut self)?);
        }
        Ok(all)
    }

    /// Attributes to the end, by type and value. None by `read`: the attribute is not as it must be.
    pub fn attributes(&mut self, mut read: impl FnMut(u16, Value<'f>) -> Option<()>) -> Read<()> {
        while !self.is_empty() {
            let broken = self.broken(Kind::Attribute);
            let (kind, value) = self.attribute().ok_or(broken)?;
            read(kind, value).ok_or(broken)?;
        }
        Ok(())
    }

    /// The values of one type among attributes to the end; any other attribute is skipped.
    pub fn attributes_of<T>(&mut self, kind: Option<u16>, read: fn(Value<'f>) -> Option<T>) -> Read<Vec<T>> {
        let mut all = Vec::new();
        self.attributes(|found, value| {
            if kind == Some(found) {
                all.push(read(value)?);
            }
            Some(())
        })?;
        Ok(all)
    }

    /// Type and value.
    fn attribute(&mut self) -> Option<(u16, Value<'f>)> {
        let first = self.number2()?;
        let value = match first & 0x8000 {
            0 => Value::Long(self.rest_of_length(0)?.octets),
            _ => Value::Short(self.number2()?),
        };
        Some((first & 0x7fff, value))
    }
}
