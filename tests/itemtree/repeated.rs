use std::fmt;
use std::{collections::HashMap, fmt};

mod inner {
    use std::fmt;
    use std::fmt::{self, Display};
    pub use std::fmt::Display;
}
