//! From cuzkelor.h to Rust, so that each list of numbers and each declaration stands in one place.
//!
//! What is read: the rows `X(…)` of the refusals, and the version, the enums and the functions that
//! stand right below a comment, which becomes their documentation.

/// What `refusals.rs` has: the refusals as rows of the macro `refusals`.
pub fn refusals(header: &str) -> Result<String, String> {
    let lines = header.lines().map(str::trim);
    let rows: String = lines
        .filter(|line| line.starts_with("X("))
        .map(|line| refusal_row(line).ok_or(format!("no row of refusals: {line}")))
        .collect::<Result<_, _>>()?;
    Ok(format!("refusals! {{\n{rows}}}\n"))
}

/// What `raw.rs` has: the numbers, and the functions that the archive exports.
pub fn raw(header: &str) -> Result<String, String> {
    let (mut constants, mut functions) = (String::new(), String::new());
    for (comment, item) in header
        .split("/*")
        .filter_map(|part| part.split_once("*/\n"))
    {
        let doc = documentation(comment);
        for (name, number) in numbers(item)? {
            constants += &format!("#[doc = {doc:?}]\npub const {name}: u32 = {number};\n");
        }
        if declares(item) {
            let doc = doc + "\n\n# Safety\n\nThe module says what a caller owes.";
            functions += &format!("#[doc = {doc:?}]\n{}\n", function(item)?);
        }
    }
    Ok(format!("{constants}extern \"C\" {{\n{functions}}}\n"))
}

/// `NoSuchBlock = 8, Place, "no such block";` of
/// `X(CUZKELOR_NO_SUCH_BLOCK, 8, PLACE, "no such block")`.
fn refusal_row(line: &str) -> Option<String> {
    let row = line.strip_prefix("X(CUZKELOR_")?;
    let (row, text) = row.split_once(", \"")?;
    let (text, _) = text.split_once("\")")?;
    let [name, number, refused] = row.split(", ").collect::<Vec<_>>().try_into().ok()?;
    let (name, refused) = (camel_case(name), camel_case(refused));
    Some(format!("{name} = {number}, {refused}, {text:?};\n"))
}

fn camel_case(name: &str) -> String {
    let word = |word: &str| word[..1].to_owned() + &word[1..].to_lowercase();
    name.split('_').map(word).collect()
}

/// A comment's text, without the stars in front of its lines.
fn documentation(comment: &str) -> String {
    let line = |line: &str| line.trim().trim_start_matches('*').trim().to_owned();
    comment.lines().map(line).collect::<Vec<_>>().join("\n")
}

/// The version, or the enumerators of an enum.
fn numbers(item: &str) -> Result<Vec<(&str, &str)>, String> {
    if let Some(version) = item.strip_prefix("#define CUZKELOR_VERSION ") {
        let number = version.lines().next().unwrap_or_default();
        return Ok(vec![("CUZKELOR_VERSION", number)]);
    }
    if !item.starts_with("enum ") {
        return Ok(Vec::new());
    }
    let body = item
        .split_once('{')
        .and_then(|(_, rest)| rest.split_once('}'));
    let (body, _) = body.ok_or(format!("no enum: {item}"))?;
    let enumerators = body.split(',').map(str::trim);
    enumerators
        .map(|one| one.split_once(" = ").ok_or(format!("no number: {one}")))
        .collect()
}

fn declares(item: &str) -> bool {
    ["uint32_t ", "size_t "]
        .iter()
        .any(|result| item.starts_with(result))
}

/// `pub fn cuzkelor_version() -> u32;` of `uint32_t cuzkelor_version(void);`.
fn function(item: &str) -> Result<String, String> {
    let read = || {
        let (head, rest) = item.split_once('(')?;
        let (parameters, _) = rest.split_once(");")?;
        let (result, name) = head.split_once(' ')?;
        Some((result, name, parameters))
    };
    let (result, name, parameters) = read().ok_or(format!("no declaration: {item}"))?;
    let parameters: Vec<String> = match parameters {
        "void" => Vec::new(),
        _ => parameters
            .split(',')
            .map(parameter)
            .collect::<Result<_, _>>()?,
    };
    let (parameters, result) = (parameters.join(", "), number_type(result)?);
    Ok(format!("pub fn {name}({parameters}) -> {result};"))
}

/// `words: *const u32` of `const uint32_t *words`.
fn parameter(parameter: &str) -> Result<String, String> {
    let name_at = parameter.rfind([' ', '*']).map_or(0, |end| end + 1);
    let (c_type, name) = parameter.split_at(name_at);
    let (number, pointer) = match c_type.trim().strip_suffix(" *") {
        None => (c_type.trim(), ""),
        Some(number) => match number.strip_prefix("const ") {
            Some(number) => (number, "*const "),
            None => (number, "*mut "),
        },
    };
    Ok(format!("{name}: {pointer}{}", number_type(number)?))
}

fn number_type(c_type: &str) -> Result<&'static str, String> {
    match c_type {
        "uint8_t" => Ok("u8"),
        "uint32_t" => Ok("u32"),
        "size_t" => Ok("usize"),
        _ => Err(format!("cuzkelor.h has a type that is no number: {c_type}")),
    }
}
