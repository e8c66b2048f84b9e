//! Inputs as text to paste into a test.

use crate::model::Event;
use crate::raw::Record;

pub trait Paste {
    fn paste(&self) -> String;
}

impl Paste for u8 {
    fn paste(&self) -> String {
        format!("{:#04x}", self)
    }
}

impl Paste for u32 {
    fn paste(&self) -> String {
        if *self < 256 {
            self.to_string()
        } else {
            format!("{:#010x}", self)
        }
    }
}

impl Paste for u64 {
    fn paste(&self) -> String {
        format!("{:#x}", self)
    }
}

impl Paste for usize {
    fn paste(&self) -> String {
        self.to_string()
    }
}

impl Paste for &Record {
    fn paste(&self) -> String {
        format!("&{:?}", self)
    }
}

impl Paste for (u32, u32) {
    fn paste(&self) -> String {
        format!("({}, {})", self.0.paste(), self.1.paste())
    }
}

impl Paste for Event {
    fn paste(&self) -> String {
        let bytes = |bytes: &[u8]| format!("vec!{}", &bytes.paste()[1..]);
        match self {
            Event::Datagram(datagram) => format!("Event::Datagram({})", bytes(datagram)),
            Event::Processed => String::from("Event::Processed"),
            Event::Outcome {
                in_use,
                information,
            } => format!(
                "Event::Outcome {{ in_use: {}, information: {} }}",
                in_use.paste(),
                match information {
                    Some(information) => format!("Some({})", bytes(information)),
                    None => String::from("None"),
                }
            ),
        }
    }
}

impl<T: Paste> Paste for &[T] {
    fn paste(&self) -> String {
        let items: Vec<String> = self.iter().map(Paste::paste).collect();
        format!("&[{}]", items.join(", "))
    }
}
