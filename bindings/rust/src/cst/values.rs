//! What typed nodes have beside their parts: texts and values, and the names of definitions.
use super::*;
use crate::{ffi, TokenText};
use std::num::{ParseFloatError, ParseIntError};
use std::str::ParseBoolError;

impl Name {
    /// The name.
    pub fn text(&self) -> TokenText {
        self.syntax.first_token_text()
    }
}

impl Variable {
    /// The name of the variable, without `$`. It is empty where an error left the name out.
    pub fn text(&self) -> TokenText {
        self.name().map_or_else(|| self.syntax.no_text(), |name| name.text())
    }
}

impl EnumValue {
    /// The name of the value. It is empty where an error left the name out.
    pub fn text(&self) -> TokenText {
        self.name().map_or_else(|| self.syntax.no_text(), |name| name.text())
    }
}

impl DirectiveLocation {
    /// The word of the location, as `FIELD`. `None` only if the parse reported errors.
    pub fn text(self) -> Option<TokenText> {
        self.syntax.first_child_or_token()?.into_token()?;
        Some(self.syntax.first_token_text())
    }
}

impl Definition {
    /// The name of what it defines or extends. A schema and a query without a name have none.
    pub fn name(&self) -> Option<Name> {
        match self {
            Definition::FragmentDefinition(fragment) => fragment.fragment_name()?.name(),
            definition => support::child(definition.syntax()),
        }
    }

    /// Whether it is an operation or a fragment.
    pub fn is_executable_definition(&self) -> bool {
        matches!(self, Definition::OperationDefinition(_) | Definition::FragmentDefinition(_))
    }

    /// Whether it is an extension of a schema or of a type.
    pub fn is_extension_definition(&self) -> bool {
        self.kind().ends_with("Extension")
    }
}

/// The value of the string, without quotes, escapes and the indent of a block string.
impl From<&'_ StringValue> for String {
    fn from(string: &StringValue) -> String {
        ffi::string_value(string.syntax.first_token_str()).unwrap_or_default()
    }
}

macro_rules! parsed_values {
    ($($node:ident, $value:ty, $error:ty;)*) => {
        $(impl TryFrom<&'_ $node> for $value {
            type Error = $error;

            fn try_from(node: &$node) -> Result<$value, $error> {
                node.syntax.first_token_str().parse()
            }
        }

        impl TryFrom<$node> for $value {
            type Error = $error;

            fn try_from(node: $node) -> Result<$value, $error> {
                <$value>::try_from(&node)
            }
        })*
    };
}

/// As above.
impl From<StringValue> for String {
    fn from(string: StringValue) -> String {
        String::from(&string)
    }
}

parsed_values! {
    IntValue, i32, ParseIntError;
    IntValue, f64, ParseFloatError;
    FloatValue, f64, ParseFloatError;
    BooleanValue, bool, ParseBoolError;
}
