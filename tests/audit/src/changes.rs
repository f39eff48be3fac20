//! Tapes of calls with answers, as they are due and changed.

/// What was done, the calls and the answers.
pub type Change = (String, Vec<u8>, Vec<u8>);

/// The tapes as they are, and each change. `ends` says where the answer records end.
pub fn all(calls: &[u8], due: &[u8], ends: &[usize]) -> Vec<Change> {
    let mut changes = vec![
        ("as due".to_string(), calls.to_vec(), due.to_vec()),
        ("swapped".to_string(), due.to_vec(), calls.to_vec()),
        ("no calls".to_string(), Vec::new(), due.to_vec()),
    ];
    let mut add = |what: String, answers: Vec<u8>| changes.push((what, calls.to_vec(), answers));
    for more in [&[0u8][..], b"rk\x0e\0\0\0"] {
        add(format!("{} bytes more", more.len()), [due, more].concat());
    }
    for place in places(due.len()) {
        add(format!("cut to {place} bytes"), due[..place].to_vec());
        let mut answers = due.to_vec();
        answers[place] ^= 1 << (place % 8);
        add(format!("byte {place} changed"), answers);
    }
    for record in places(ends.len()) {
        let start = if record == 0 { 0 } else { ends[record - 1] };
        add(format!("record {record} left out"), [&due[..start], &due[ends[record]..]].concat());
    }
    changes
}

/// The tape without its last byte.
pub fn cut(due: &[u8]) -> Vec<u8> {
    due[..due.len().saturating_sub(1)].to_vec()
}

/// Places below a length: the first, one in the middle and the last.
fn places(length: usize) -> Vec<usize> {
    let mut places = vec![0, length / 2, length.saturating_sub(1)];
    places.retain(|&place| place < length);
    places.dedup();
    places
}
