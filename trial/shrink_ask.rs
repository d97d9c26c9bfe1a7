//! The fields of a question that may be left out: of a chain its distances, with an output as much shorter,
//! since any other length is a refusal that hides the rest.

/// What stands before the fields; of a chain without the number of its output.
pub struct Question<'a> {
    head: &'a [u8],
    /// By how much a chain's output is longer than its distances.
    longer: Option<i128>,
}

type Parts<'a> = (Question<'a>, Vec<&'a [u8]>);

/// Each field has the space before it, and the last one the line's end behind it. Several lines are taken as
/// one.
pub fn parts(lines: &[u8]) -> Parts<'_> {
    let ends = (0..lines.len()).filter(|&at| lines[at] == b' ').chain([lines.len()]);
    let ends: Vec<usize> = ends.collect();
    let fields: Vec<&[u8]> = ends.windows(2).map(|pair| &lines[pair[0]..pair[1]]).collect();
    let as_chain = chain(lines, &ends, &fields).filter(|(question, left)| question.with(left) == lines);
    as_chain.unwrap_or((Question { head: &lines[..ends[0]], longer: None }, fields))
}

/// None too where the number of the output is the last field. One that is written in a rare way is another
/// line when it is put together.
fn chain<'a>(lines: &'a [u8], ends: &[usize], fields: &[&'a [u8]]) -> Option<Parts<'a>> {
    let n: i128 = std::str::from_utf8(fields.get(3)?.get(1..)?).ok()?.parse().ok()?;
    let distances = fields[4..].to_vec();
    let longer = Some(n - distances.len() as i128);
    lines.starts_with(b"chain ").then_some((Question { head: &lines[..ends[3]], longer }, distances))
}

impl Question<'_> {
    pub fn with(&self, fields: &[&[u8]]) -> Vec<u8> {
        let n = self.longer.map(|longer| format!(" {}", longer + fields.len() as i128));
        [self.head, n.unwrap_or_default().as_bytes(), &fields.concat()].concat()
    }
}
