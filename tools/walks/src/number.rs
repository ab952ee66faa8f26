//! The number types that a parameter by value may have, and the texts that are only about them.

use crate::text::tidy;

/// A number type; `bool` is one.
#[derive(Clone, Copy, Debug, PartialEq)]
pub struct Number {
    name: &'static str,
    /// The name of its width in MIR. A `bool` has none.
    width: Option<&'static str>,
}

const NUMBERS: [Number; 5] = [
    Number { name: "u8", width: Some("w8") },
    Number { name: "u32", width: Some("w32") },
    Number { name: "u64", width: Some("w64") },
    Number { name: "usize", width: Some("w64") },
    Number { name: "bool", width: None },
];

/// The type of the number that an early test returns.
pub const U32: Number = NUMBERS[1];

impl Number {
    /// The number type of this name.
    pub fn named(name: &str) -> Option<Number> {
        NUMBERS.into_iter().find(|number| number.name == name)
    }

    /// Its name, which is also that of its row.
    pub fn name(self) -> &'static str {
        self.name
    }

    /// The type of its values.
    pub fn denot(self) -> &'static str {
        self.width.map_or("Bool", |_| "ℕ")
    }

    /// Its value in MIR.
    pub fn val(self, value: &str) -> String {
        self.width.map_or(format!("vbool {value}"), |width| format!("vint {width} {value}"))
    }

    /// The function from a value to its values in MIR.
    pub fn vals(self) -> String {
        self.of_width("vals", "")
    }

    /// The law that its type relates a value to these values.
    pub fn tells(self) -> String {
        self.of_width("tells", "")
    }

    /// The type in MIR.
    pub fn mir(self) -> String {
        self.width.map_or("tyBool".to_string(), |width| format!("(tyInt {width})"))
    }

    /// The proof that its value in MIR has its type. `is` is the fact that the value is in its row.
    pub fn typed(self, is: &str) -> String {
        self.width.map_or("(tt, tt)".to_string(), |_| format!("(tt, record {{ fits = {is} .1 }})"))
    }

    /// The same for a value `value` that is related to any value in MIR.
    pub fn lawful(self, value: &str, is: &str) -> String {
        format!("({} .typed {value} _ {is} .0)", self.of_width("lawful", "𝓤 H A W"))
    }

    /// The step after which a value of the type is owned.
    pub fn owned(self, value: &str, is: &str) -> String {
        let Number { name, .. } = self;
        format!("owned ! {name} (Is {name}) ({}) {value} _ {is}", self.of_width("makes", "𝓤 H A W"))
    }

    /// The names that these texts use, each with the module that has it.
    pub fn uses(self) -> Vec<(&'static str, &'static str)> {
        let plain = "denote.Plain";
        let own = match self.width {
            Some(width) => {
                let laws = [(plain, "uint-vals"), (plain, "uint-tells"), (plain, "uint-makes")];
                [&laws[..], &[("mir.Syntax", width), ("mir.Val", "vint")]].concat()
            }
            None => {
                let laws = [(plain, "bool-vals"), (plain, "bool-tells"), (plain, "bool-makes")];
                [&laws[..], &[("mathlib.Core.Bool", "Bool"), ("mir.Val", "vbool")]].concat()
            }
        };
        [&own[..], &[("denote.Builtin", self.name)]].concat()
    }

    /// A law of the number types with its arguments, the last of which is the width.
    fn of_width(self, law: &str, args: &str) -> String {
        let words = match self.width {
            Some(width) => [&format!("uint-{law}"), args, width].join(" "),
            None => [&format!("bool-{law}"), args].join(" "),
        };
        tidy(&words)
    }
}

#[cfg(test)]
mod tests {
    use super::*;

    #[test]
    fn types_that_are_numbers() {
        let widths =
            ["u8", "u32", "u64", "usize", "bool"].map(|name| Number::named(name).and_then(|number| number.width));
        assert_eq!(widths, [Some("w8"), Some("w32"), Some("w64"), Some("w64"), None]);
        assert!(["u16", "i64", "f64", "char", "Desk", ""].into_iter().all(|name| Number::named(name).is_none()));
        assert_eq!(Number::named("u32"), Some(U32));
    }

    #[test]
    fn texts_of_numbers() {
        assert_eq!([U32.denot(), &U32.val("n"), &U32.mir()], ["ℕ", "vint w32 n", "(tyInt w32)"]);
        assert_eq!([U32.vals(), U32.tells()], ["uint-vals w32", "uint-tells w32"]);
        assert_eq!(U32.typed("is"), "(tt, record { fits = is .1 })");
        assert_eq!(U32.lawful("n", "is"), "(uint-lawful 𝓤 H A W w32 .typed n _ is .0)");
        assert_eq!(U32.owned("n", "is"), "owned ! u32 (Is u32) (uint-makes 𝓤 H A W w32) n _ is");
    }

    #[test]
    fn texts_of_truth_values() {
        let truth = Number::named("bool").expect("a bool is a number here");
        assert_eq!([truth.denot(), &truth.val("b"), &truth.mir()], ["Bool", "vbool b", "tyBool"]);
        assert_eq!([truth.vals(), truth.tells()], ["bool-vals", "bool-tells"]);
        assert_eq!(truth.typed("is"), "(tt, tt)");
        assert_eq!(truth.owned("b", "is"), "owned ! bool (Is bool) (bool-makes 𝓤 H A W) b _ is");
    }
}
