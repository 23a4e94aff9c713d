//! A list of texts, each with its refusal and place: `data/json-texts.txt`, whose head describes it.

use generate::json::{marked, Marked};
use model::json::Refused;
use model::Model;

/// An event's fields but one, which is to follow.
const FIELDS: [(&str, &str); 7] = [
    ("time", "0"),
    ("namespace", "[]"),
    ("action", "\"\""),
    ("kind", "\"\""),
    ("logged", "{}"),
    ("context", "{}"),
    ("entities", "[]"),
];

/// A text, and what it is refused with.
pub struct Text {
    pub bytes: Vec<u8>,
    pub expected: Option<Refused>,
}

/// A line of the list; none for a remark.
pub fn read(line: &[u8]) -> Result<Option<Text>, String> {
    if line.is_empty() || line[0] == b'#' {
        return Ok(None);
    }
    let mut parts = line.splitn(3, |&byte| byte == b' ');
    let mut part = || parts.next().ok_or("a line of fewer than three parts");
    let number = String::from_utf8_lossy(part()?).into_owned();
    let refusal: u32 = number.parse().map_err(|_| format!("`{number}` is no refusal"))?;
    let field = String::from_utf8_lossy(part()?).into_owned();
    let Marked { bytes, place, first } = marked(part()?)?;
    let mut text = Vec::new();
    if field != "log" {
        let field = if field == "value" { "principal" } else { &field };
        let others = FIELDS.iter().filter(|(name, _)| *name != field);
        let others: String = others.map(|(name, value)| format!("\"{name}\":{value},")).collect();
        text = format!("{{{others}\"{field}\":").into_bytes();
    }
    let before = text.len();
    text.extend(bytes);
    if field != "log" && refusal == 0 {
        text.push(b'}');
    }
    let expected = (refusal != 0)
        .then(|| {
            let place = before + place.ok_or("a refusal without a place")?;
            Ok::<_, String>(Refused { refusal, place, first: first.map(|first| before + first) })
        })
        .transpose()?;
    Ok(Some(Text { bytes: text, expected }))
}

/// Puts every text to the model; gives how many there are and what differs.
pub fn ask(model: Model, list: &[u8]) -> Result<(usize, Vec<String>), String> {
    let (mut asked, mut differences) = (0, Vec::new());
    for (k, line) in list.split(|&byte| byte == b'\n').enumerate() {
        let Some(text) = read(line).map_err(|fault| format!("line {}: {fault}", k + 1))? else {
            continue;
        };
        asked += 1;
        let said = model.events(&text.bytes).err();
        if said != text.expected {
            let (line, said) = (String::from_utf8_lossy(line), said.map(|said| (said.refusal, said.place, said.first)));
            let expected = text.expected.map(|said| (said.refusal, said.place, said.first));
            differences.push(format!("line {}: {line}\n    list {expected:?}, model {said:?}", k + 1));
        }
    }
    Ok((asked, differences))
}
