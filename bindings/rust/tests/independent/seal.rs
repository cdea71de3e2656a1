//! Sealing a note and opening it, from document 02 and Algorithm 7 of source document 001. The quotations are from document
//! 02 unless another source is named.

use super::{
    absorb, add, are_elements, finish, named, squeeze, start, Field, Session, ABSORB, LONGEST_CALL, LONGEST_SEPARATOR,
};

/// "A key of 8 elements and a nonce of 8"; "at the end 8 elements are squeezed as the mark."
pub const KEY_LENGTH: usize = 8;
pub const NONCE_LENGTH: usize = 8;
pub const MARK_LENGTH: usize = 8;

/// "for each of 1 to 31 blocks".
pub const MOST_BLOCKS: usize = 31;

/// "Sealed notes keep form 1."
const FORM: u32 = 1;

/// What is lent to both calls alike: "What was sealed opens to the same blocks under the same field, key, nonce, separator
/// and lengths." The field is a number and the lists are of any length, since the calls check them.
#[derive(Clone, Copy, Debug)]
pub struct SealInputs<'a> {
    pub field: u32,
    pub key: &'a [u32],
    pub nonce: &'a [u32],
    pub separator: &'a [u8],
    pub lengths: &'a [u32],
}

/// How many elements all blocks hold; None for "no blocks or over 31, a block length of 0 or above 16,777,216". The sum is
/// formed after these tests, and is then at most 31 × 16,777,216, which no list of lengths makes overflow.
fn total_length(lengths: &[u32]) -> Option<usize> {
    let allowed =
        (1..=MOST_BLOCKS).contains(&lengths.len()) && lengths.iter().all(|length| (1..=LONGEST_CALL).contains(length));
    allowed.then(|| lengths.iter().map(|length| *length as usize).sum())
}

/// Not 20: "any other lent list or buffer, key and nonce too, whose length isn't exactly what is needed". The plain blocks
/// and the sealed list, which is "every cipher element and then the mark", are the text and the buffer of either call.
fn lengths_are_as_needed(inputs: &SealInputs, plain_length: usize, sealed_length: usize) -> bool {
    total_length(inputs.lengths).is_some_and(|total| {
        inputs.key.len() == KEY_LENGTH
            && inputs.nonce.len() == NONCE_LENGTH
            && plain_length == total
            && sealed_length == total + MARK_LENGTH
    })
}

/// 20 "after START's own 18 and 6, before 10, which covers key, nonce and plain elements, on opening cipher and mark in place
/// of plain". START is not asked for its numbers: it would look at the lengths before the separator.
fn check(inputs: &SealInputs, text: &[u32], plain_length: usize, sealed_length: usize) -> Result<&'static Field, u32> {
    let field = named(inputs.field).ok_or(18_u32)?;
    if inputs.separator.len() > LONGEST_SEPARATOR {
        return Err(6);
    }
    if !lengths_are_as_needed(inputs, plain_length, sealed_length) {
        return Err(20);
    }
    if ![inputs.key, inputs.nonce, text]
        .iter()
        .all(|list| are_elements(field, list))
    {
        return Err(10);
    }
    Ok(field)
}

/// "A key of 8 elements and a nonce of 8 are declared and absorbed as one call of 16, so that 31 blocks need 64 words; then for
/// each of 1 to 31 blocks as many elements are squeezed as the block holds", "and the plain block is absorbed; at the end 8
/// elements are squeezed as the mark."
fn declared_words(lengths: &[u32]) -> Vec<u32> {
    let mut words = vec![ABSORB + (KEY_LENGTH + NONCE_LENGTH) as u32];
    words.extend(lengths.iter().flat_map(|length| [*length, ABSORB + *length]));
    words.push(MARK_LENGTH as u32);
    words
}

/// ABSORB of a list that the pattern has next.
fn absorb_all(session: &mut Session, elements: &[u32]) {
    assert_eq!(absorb(session, elements), 0, "ABSORB of {} elements", elements.len());
}

/// SQUEEZE of as many elements as the pattern has next.
fn squeeze_all(session: &mut Session, count: usize) -> Vec<u32> {
    let mut elements = vec![0; count];
    assert_eq!(squeeze(session, &mut elements), 0, "SQUEEZE of {count} elements");
    elements
}

/// The session once key and nonce are absorbed. Nothing in it is refused where the inputs were checked.
fn session_with_key(inputs: &SealInputs) -> Session {
    let (number, mut session) = start(inputs.field, FORM, &declared_words(inputs.lengths), inputs.separator);
    assert_eq!(number, 0, "START");
    absorb_all(&mut session, &[inputs.key, inputs.nonce].concat());
    session
}

/// The mark of a session whose blocks are all absorbed. 001, Algorithm 7: what was squeezed counts "Upon success of FINISH()
/// and of previous calls".
fn mark_at_end(mut session: Session) -> Vec<u32> {
    let mark = squeeze_all(&mut session, MARK_LENGTH);
    assert_eq!(finish(&mut session), 0, "FINISH");
    mark
}

/// A list cut into blocks of these lengths, which it has exactly.
fn blocks<'a>(list: &'a [u32], lengths: &[u32]) -> Vec<&'a [u32]> {
    let mut rest = list;
    let mut cut = Vec::new();
    for length in lengths {
        let (block, behind) = rest.split_at(*length as usize);
        cut.push(block);
        rest = behind;
    }
    assert!(rest.is_empty(), "elements behind the last block");
    cut
}

/// The element that gives `sum` when `b` is added to it: what sealing added, opening takes away.
fn subtract(field: &Field, sum: u32, b: u32) -> u32 {
    add(field, sum, field.p - b)
}

/// "as many elements are squeezed as the block holds, added to it to give cipher elements, and the plain block is absorbed".
fn seal_block(field: &Field, session: &mut Session, plain: &[u32]) -> Vec<u32> {
    let squeezed = squeeze_all(session, plain.len());
    absorb_all(session, plain);
    plain.iter().zip(&squeezed).map(|(a, b)| add(field, *a, *b)).collect()
}

/// "Opening gives the blocks back": it squeezes what sealing squeezed, as long as it absorbs what sealing absorbed, and that is
/// the plain block.
fn open_block(field: &Field, session: &mut Session, cipher: &[u32]) -> Vec<u32> {
    let squeezed = squeeze_all(session, cipher.len());
    let plain: Vec<u32> = cipher
        .iter()
        .zip(&squeezed)
        .map(|(a, b)| subtract(field, *a, *b))
        .collect();
    absorb_all(session, &plain);
    plain
}

/// "every cipher element and then the mark are written to one lent buffer." "A refused seal or open writes nothing".
pub fn seal(inputs: &SealInputs, plain: &[u32], out: &mut [u32]) -> u32 {
    let field = match check(inputs, plain, plain.len(), out.len()) {
        Ok(field) => field,
        Err(number) => return number,
    };
    let mut session = session_with_key(inputs);
    let mut sealed = Vec::new();
    for block in blocks(plain, inputs.lengths) {
        sealed.extend(seal_block(field, &mut session, block));
    }
    sealed.extend(mark_at_end(session));
    out.copy_from_slice(&sealed);
    0
}

/// "Opening gives the blocks back and compares the mark." "A refused seal or open writes nothing, except that a wrong mark
/// leaves zeros where the blocks would be." "21: the mark differs, last."
pub fn open(inputs: &SealInputs, sealed: &[u32], out: &mut [u32]) -> u32 {
    let field = match check(inputs, sealed, out.len(), sealed.len()) {
        Ok(field) => field,
        Err(number) => return number,
    };
    let (cipher, mark) = sealed.split_at(out.len());
    let mut session = session_with_key(inputs);
    let mut plain = Vec::new();
    for block in blocks(cipher, inputs.lengths) {
        plain.extend(open_block(field, &mut session, block));
    }
    if mark_at_end(session) != mark {
        out.fill(0);
        return 21;
    }
    out.copy_from_slice(&plain);
    0
}
