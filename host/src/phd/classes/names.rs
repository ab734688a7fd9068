//! Class names: as the dump has them, and as Java has them.

/// The primitive types, in the order of their numbers: as a dump has them, and as Java has them.
const PRIMITIVES: [(char, &str); 8] = [
    ('Z', "boolean"),
    ('C', "char"),
    ('F', "float"),
    ('D', "double"),
    ('B', "byte"),
    ('S', "short"),
    ('I', "int"),
    ('J', "long"),
];

/// Returns the dump's name of arrays of a primitive type, such as `[C`.
pub fn primitive_array(primitive: u64) -> String {
    format!("[{}", PRIMITIVES[primitive as usize].0)
}

/// Returns the dump's name of arrays of a class, as in classic text: `[Ljava/lang/String;`, `[[C`.
pub fn object_array(element: &str) -> String {
    if element.starts_with('[') {
        format!("[{element}")
    } else {
        format!("[L{element};")
    }
}

/// Returns the name that Java has for a name of the dump: `java.lang.String`, `char[]`. A name that begins like an array's and is
/// none stays as it is.
pub fn java(raw: &str) -> String {
    let element = raw.trim_start_matches('[');
    let dimensions = raw.len() - element.len();
    if dimensions == 0 {
        return raw.replace('/', ".");
    }
    match java_element(element) {
        Some(name) => name + &"[]".repeat(dimensions),
        None => raw.into(),
    }
}

/// Returns the name that Java has for the elements of an array: `C` is `char`, and `Ljava/lang/String;` is `java.lang.String`.
fn java_element(element: &str) -> Option<String> {
    let is_it = |(letter, _): &&(char, &str)| element.strip_prefix(*letter) == Some("");
    if let Some((_, name)) = PRIMITIVES.iter().find(is_it) {
        return Some(name.to_string());
    }
    let class = element.strip_prefix('L')?.strip_suffix(';')?;
    Some(class.replace('/', "."))
}

#[cfg(test)]
mod tests {
    use super::{java, object_array, primitive_array};

    #[test]
    fn names_of_java() {
        for (raw, name) in [
            ("java/lang/String", "java.lang.String"),
            ("A", "A"),
            ("[C", "char[]"),
            ("[[J", "long[][]"),
            ("[Lcom/x/Y;", "com.x.Y[]"),
            ("[[[Lcom/x/Y$Z;", "com.x.Y$Z[][][]"),
            ("[", "["),
            ("[CC", "[CC"),
            ("[Lcom/x/Y", "[Lcom/x/Y"),
            ("[X", "[X"),
        ] {
            assert_eq!(java(raw), name);
        }
    }

    #[test]
    fn names_of_arrays() {
        assert_eq!(primitive_array(1), "[C");
        assert_eq!(primitive_array(7), "[J");
        assert_eq!(object_array("com/x/Y"), "[Lcom/x/Y;");
        assert_eq!(object_array("[C"), "[[C");
        assert_eq!(java(&object_array("com/x/Y")), "com.x.Y[]");
        assert_eq!(java(&object_array("[Lcom/x/Y;")), "com.x.Y[][]");
    }
}
