//! The types of references, which the stand-in lacks.

pub struct SyntaxElement;
pub struct SyntaxNode;
pub struct SyntaxNodeChildren;
pub struct SyntaxNodePtr;
pub struct SyntaxToken;
