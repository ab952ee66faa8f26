//! A parameter of a call: what it is, the names of its parts in a proof, and the texts that are only about it.

use crate::number::Number;

/// The number types that the elements of a slice or of an array may have.
const ELEMENTS: [&str; 2] = ["u8", "u32"];

#[derive(Clone, Copy, Debug, PartialEq)]
pub enum Kind {
    /// A struct by value.
    Struct,
    /// A number by value.
    Number(Number),
    /// A slice.
    Slice(Loan),
    /// A reference to an array.
    Array(Loan),
}

/// How a slice or an array is lent.
#[derive(Clone, Copy, Debug, PartialEq)]
pub enum Loan {
    /// The call may change it.
    Mut,
    /// The call only reads it.
    Shared,
}

/// A type as a parameter list has it: the type by value, or of the elements.
pub enum Type<'a> {
    Value(&'a str),
    Slice(Loan, &'a str),
    /// The lengths stand from the inside to the outside.
    Array(Loan, &'a str, Vec<&'a str>),
}

pub struct Param {
    pub name: String,
    pub kind: Kind,
    /// The type by value, or of the elements.
    pub of: String,
    /// The lengths of an array, from the inside to the outside.
    pub lengths: Vec<String>,
    /// Its place among the parameters.
    pub index: usize,
    /// The place of a reference among the references.
    pub lifetime: usize,
    /// Is it the row of seats that is loaded and stored?
    pub is_seats: bool,
    /// Its value at entry and at exit; a list if it is a slice or an array.
    pub v: String,
    pub z: String,
    /// Its value in MIR.
    pub s: String,
    /// The facts that a value is in its row, that a slice's elements have room, and that a slice keeps its length.
    pub is: String,
    pub room: String,
    pub len: String,
    /// The reference, which depends on a value, and what is owned of it.
    pub x: String,
    pub own: String,
    /// The reference's lifetime and the share of it, its ghost name, and its pointer's block and offset.
    pub k: String,
    pub q: String,
    pub g: String,
    pub b: String,
    pub o: String,
    /// The lifetime's number in the signature.
    pub named: String,
}

impl Param {
    /// A parameter at these places; none if a call on lent seats cannot have such a parameter.
    pub fn new(name: &str, of: Type, index: usize, lifetime: usize) -> Option<Param> {
        let part = |letter: &str| format!("{letter}-{name}");
        let (kind, of, lengths) = of.read()?;
        Some(Param {
            name: name.to_string(),
            kind,
            of: of.to_string(),
            lengths: lengths.into_iter().map(str::to_string).collect(),
            index,
            lifetime,
            is_seats: false,
            v: part("v"),
            z: part("z"),
            s: part("s"),
            is: part("is"),
            room: part("room"),
            len: part("len"),
            x: part("x"),
            own: part("Own"),
            k: part("κ"),
            q: part("q"),
            g: part("γ"),
            b: part("b"),
            o: part("o"),
            named: format!("(named {lifetime})"),
        })
    }

    /// How it is lent, if it is not passed by value.
    pub fn loan(&self) -> Option<Loan> {
        match self.kind {
            Kind::Slice(loan) | Kind::Array(loan) => Some(loan),
            Kind::Struct | Kind::Number(_) => None,
        }
    }

    /// Is it a slice or a reference to an array?
    pub fn is_ref(&self) -> bool {
        self.loan().is_some()
    }

    /// May the call change it?
    pub fn changes(&self) -> bool {
        self.loan() == Some(Loan::Mut)
    }

    /// Is it a slice, whose length is a part of its value?
    pub fn is_slice(&self) -> bool {
        matches!(self.kind, Kind::Slice(_))
    }

    /// Is it a struct or a slice of structs?
    pub fn is_of_struct(&self) -> bool {
        Number::named(&self.of).is_none()
    }
}

impl<'a> Type<'a> {
    /// The kind of a parameter of this type, the type by value or of the elements, and the lengths of an array.
    fn read(self) -> Option<(Kind, &'a str, Vec<&'a str>)> {
        let is_struct = |of: &str| of.starts_with(char::is_uppercase);
        let is_element = |of: &str| ELEMENTS.contains(&of);
        match self {
            Type::Value(of) if is_struct(of) => Some((Kind::Struct, of, Vec::new())),
            Type::Value(of) => Number::named(of).map(|number| (Kind::Number(number), of, Vec::new())),
            Type::Slice(loan, of) if is_struct(of) || is_element(of) => Some((Kind::Slice(loan), of, Vec::new())),
            Type::Array(loan, of, lengths) if is_element(of) => Some((Kind::Array(loan), of, lengths)),
            Type::Slice(..) | Type::Array(..) => None,
        }
    }
}

/// The types.
impl Param {
    /// The row of the type by value or of a slice's elements, and that of a whole array.
    pub fn row(&self) -> String {
        let of = if self.is_of_struct() { format!("{}D.the-row", self.of) } else { self.of.clone() };
        self.lengths.iter().fold(of, |of, length| format!("(Array {of} {length})"))
    }

    /// The type of its value at entry.
    pub fn denot(&self) -> String {
        let of = Number::named(&self.of).map_or(self.of.as_str(), |number| number.denot());
        match self.kind {
            Kind::Struct | Kind::Number(_) => of.to_string(),
            Kind::Slice(_) => format!("List {of}"),
            Kind::Array(_) => {
                let inner = self.lengths[1..].iter().fold(of.to_string(), |of, _| format!("(List {of})"));
                format!("List {inner}")
            }
        }
    }

    /// The type of a slice or of a reference to an array.
    pub fn ref_type(&self) -> String {
        let loan = if self.changes() { "Mut" } else { "Shr" };
        let to = if self.is_slice() { "Slice" } else { "Ref" };
        format!("{loan}{to} {} {} {}", self.named, self.k, self.row())
    }

    /// The part of a law's name that says what is lent.
    pub fn noun(&self) -> &'static str {
        if self.is_slice() {
            "slice"
        } else {
            "ref"
        }
    }
}

/// The laws and the steps.
impl Param {
    /// The function from its value to its values in MIR.
    pub fn vals(&self) -> String {
        match self.kind {
            Kind::Struct => of_struct("vals", &self.of),
            Kind::Number(number) => number.vals(),
            Kind::Slice(_) => "slice-vals".to_string(),
            Kind::Array(_) => "ptr-vals".to_string(),
        }
    }

    /// Its value in MIR.
    pub fn val(&self) -> String {
        let Param { b, o, v, .. } = self;
        match self.kind {
            Kind::Struct => format!("{} {v}", of_struct("val", &self.of)),
            Kind::Number(number) => number.val(v),
            Kind::Slice(_) => format!("sliceVal ({b}, {o}) (length {v})"),
            Kind::Array(_) => format!("vptr {b} {o}"),
        }
    }

    /// What is owned of a reference at exit: the fact about the last value of one that may change, and otherwise the
    /// reference.
    pub fn had(&self) -> String {
        if self.changes() {
            self.last(&self.z)
        } else {
            self.own.clone()
        }
    }

    /// The fact about the last value of a reference.
    pub fn last(&self, value: &str) -> String {
        let (row, g) = (self.row(), &self.g);
        if self.is_slice() {
            format!("finally {row} {g} {value}")
        } else {
            format!("fres {g} ({row} .coded .code {value})")
        }
    }

    /// The proof that its value in MIR has its type.
    pub fn typed(&self) -> String {
        match self.kind {
            Kind::Struct => lawful(&self.of, &self.v, &self.is),
            Kind::Number(number) => number.typed(&self.is),
            Kind::Slice(_) => format!("(tt, (tt, (record {{ fits = {} .0 }}, tt)))", self.room),
            Kind::Array(_) => "(tt, tt)".to_string(),
        }
    }

    /// The step after which a parameter by value is owned.
    pub fn owned(&self) -> String {
        match self.kind {
            Kind::Number(number) => number.owned(&self.v, &self.is),
            _ => owned(&self.of, &self.v, &self.is),
        }
    }

    /// The law that what is owned of a reference that is only read can be had twice.
    pub fn twice(&self) -> String {
        let Param { named, k, x, v, s, .. } = self;
        let copy = if self.is_slice() { "shr-slice-copy" } else { "shr-copy" };
        format!("({copy} 𝓤 H A W {named} {k} {} .twice ({x} {v}) ({s} ∷ []))", self.row())
    }

    /// A reference's lifetime and share.
    pub fn token(&self) -> String {
        format!("‵ (flft {} {})", self.k, self.q)
    }
}

/// A function of the kit for a struct.
fn of_struct(function: &str, of: &str) -> String {
    format!("LL.{function} {of}D.the-type {of}L.the-laws")
}

/// The proof that the value of the struct `of` has its type in MIR.
pub fn lawful(of: &str, value: &str, is: &str) -> String {
    format!("(LL.lawful {of}D.the-type {of}L.the-laws 𝓤 H A W .typed {value} _ {is} .0)")
}

/// The step after which a value of the struct `of` is owned.
pub fn owned(of: &str, value: &str, is: &str) -> String {
    let makes = format!("(LL.makes {of}D.the-type {of}L.the-plain 𝓤 H A)");
    format!("owned ! {of}D.the-row (Is {of}D.the-row) {makes} {value} _ {is}")
}
