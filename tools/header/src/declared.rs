//! What C sees: functions, structs and constants, with the names of types that C uses.

/// A parameter or a field. Its type is spelled like `size_t`, `const uint8_t *`, `uint8_t[10]` or `uint32_t[33][3]`.
#[derive(Clone, PartialEq)]
pub struct Part {
    pub name: String,
    pub kind: String,
}

#[derive(PartialEq)]
pub struct Function {
    pub name: String,
    pub result: String,
    pub parameters: Vec<Part>,
}

#[derive(PartialEq)]
pub struct Struct {
    pub name: String,
    pub fields: Vec<Part>,
}

/// A static assertion about a struct's size, or about the offset of one field.
pub struct Asserted {
    pub name: String,
    pub field: Option<String>,
}

/// A constant of an enum.
pub struct Constant {
    /// The enum's name; empty if it has none.
    pub group: String,
    pub name: String,
    pub value: u64,
}

/// Everything that one side declares, and what could not be read.
#[derive(Default)]
pub struct Declared {
    pub functions: Vec<Function>,
    pub structs: Vec<Struct>,
    /// Only the header has these.
    pub constants: Vec<Constant>,
    pub asserted: Vec<Asserted>,
    pub faults: Vec<String>,
}

impl Declared {
    /// Adds a function. If there is one of this name already, adds a fault too.
    pub fn add_function(&mut self, function: Function) {
        if self.functions.iter().any(|f| f.name == function.name) {
            self.faults.push(format!("{}: is declared twice", function.name));
        }
        self.functions.push(function);
    }

    /// The same for a struct.
    pub fn add_struct(&mut self, found: Struct) {
        if self.structs.iter().any(|s| s.name == found.name) {
            self.faults.push(format!("{}: is declared twice", found.name));
        }
        self.structs.push(found);
    }

    /// The same for a constant.
    pub fn add_constant(&mut self, constant: Constant) {
        if self.constants.iter().any(|c| c.name == constant.name) {
            self.faults.push(format!("{}: is declared twice", constant.name));
        }
        self.constants.push(constant);
    }
}

impl Part {
    /// The part as it is written in C.
    pub fn shown(&self) -> String {
        match self.kind.split_once('[') {
            Some((element, length)) => format!("{element} {}[{length}", self.name),
            None if self.kind.ends_with('*') => format!("{}{}", self.kind, self.name),
            None => format!("{} {}", self.kind, self.name),
        }
    }
}
