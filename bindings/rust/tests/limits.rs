//! The package's limits are those of the library, each tried with what is lent on the heap.

use zullifern::{data_bound, table_bound, written_size, Grammar, LineEnding, Refusal, WriteRefusal};
use zullifern::{DATA_LIMIT, LABEL_LIMIT, READ_LIMIT, TABLE_LIMIT, TEXT_LIMIT, WRITTEN_LIMIT};

/// How many groups of four characters, and how many messages, a text within its limit has at most.
const MOST_GROUPS: usize = 4_194_296;
const MOST_MESSAGES: usize = 559_240;

/// A text of just the limit with the most data that one can hold: 16 bytes of opening, 14 of closing, and 2 of white.
fn text_at_the_limit() -> Vec<u8> {
    let characters = b"AAAA".repeat(MOST_GROUPS);
    [b"-----BEGIN -----", characters.as_slice(), b"-----END -----  "].concat()
}

#[test]
fn text_and_its_data() {
    let mut text = text_at_the_limit();
    assert_eq!((TEXT_LIMIT, READ_LIMIT), (16_777_216, 12_582_912));
    assert_eq!(text.len(), TEXT_LIMIT);
    let mut out = vec![0xAA; READ_LIMIT];
    let message = zullifern::read(&text, Grammar::Lax, &mut out).unwrap();
    assert_eq!(message.data.len(), 3 * MOST_GROUPS);
    text.push(b' ');
    let refusal = Refusal::TextTooLong { length: text.len() };
    for grammar in Grammar::ALL {
        assert_eq!(zullifern::read(&text, grammar, &mut [0; 9]), Err(refusal));
        assert_eq!(zullifern::index(&text, grammar, &mut [0; 9]), Err(refusal));
    }
}

#[test]
fn text_and_its_table() {
    assert_eq!(TABLE_LIMIT, 3_355_441);
    let mut most = b"-----BEGIN ----------END -----".repeat(MOST_MESSAGES);
    most.resize(TEXT_LIMIT, b' ');
    let mut table = vec![7; TABLE_LIMIT];
    let index = zullifern::index(&most, Grammar::Lax, &mut table).unwrap();
    assert_eq!((index.len(), index.table().len()), (MOST_MESSAGES, TABLE_LIMIT));
    let refusal = Refusal::TableTooSmall { needed: TABLE_LIMIT };
    assert_eq!(
        zullifern::index(&most, Grammar::Lax, &mut table[1..]).err(),
        Some(refusal)
    );
}

#[test]
fn label_data_and_their_text() {
    assert_eq!((DATA_LIMIT, WRITTEN_LIMIT), (8_388_608, 11_534_500));
    let largest = LineEnding::ALL.map(|ending| written_size(LABEL_LIMIT, DATA_LIMIT, ending));
    assert_eq!(largest, [11_359_735, 11_534_500, 11_359_735]);
    let label = "A".repeat(LABEL_LIMIT);
    let mut data = vec![0x5A; DATA_LIMIT];
    let mut out = vec![0xAA; WRITTEN_LIMIT];
    for (ending, needed) in LineEnding::ALL.into_iter().zip(largest) {
        let written = zullifern::write(&label, &data, ending, &mut out[..needed]).map(str::len);
        assert_eq!(written, Ok(needed));
        let refusal = WriteRefusal::OutputTooSmall { needed };
        let lent = &mut out[..needed - 1];
        assert_eq!(zullifern::write(&label, &data, ending, lent).err(), Some(refusal));
    }
    data.push(0);
    let refusal = WriteRefusal::DataTooLong { length: data.len() };
    let ending = LineEnding::CrLf;
    assert_eq!(zullifern::write(&label, &data, ending, &mut out).err(), Some(refusal));
    let refusal = WriteRefusal::LabelTooLong { length: 65 };
    assert_eq!(
        zullifern::write(label + "A", b"f", ending, &mut out).err(),
        Some(refusal)
    );
}

#[test]
fn label_of_a_text() {
    for (length, number) in [(64, None), (65, Some(6))] {
        let text = "-----BEGIN A-----\nZg==\n-----END A-----\n".replace('A', &"A".repeat(length));
        let refusal = zullifern::read(text.as_bytes(), Grammar::Strict, &mut [0]).err();
        assert_eq!(refusal.map(|refusal| refusal.number()), number);
    }
}

#[test]
fn bounds_go_no_further() {
    for length in [TEXT_LIMIT, TEXT_LIMIT + 1, usize::MAX] {
        assert_eq!((data_bound(length), table_bound(length)), (READ_LIMIT, TABLE_LIMIT));
    }
}

#[cfg(feature = "alloc")]
#[test]
fn what_is_too_long_is_refused_without_the_memory_for_it() {
    use zullifern::owned;

    let length = 2 * TEXT_LIMIT;
    let long = vec![b'A'; length];
    let refusal = Refusal::TextTooLong { length };
    assert_eq!(owned::read(&long, Grammar::Lax).err(), Some(refusal));
    assert_eq!(owned::read_bundle(&long, Grammar::Lax).err(), Some(refusal));
    let refusal = WriteRefusal::DataTooLong { length };
    assert_eq!(owned::write("A", &long, LineEnding::Lf).err(), Some(refusal));
    let refusal = WriteRefusal::LabelTooLong { length };
    assert_eq!(owned::write(&long, &long, LineEnding::Lf).err(), Some(refusal));
}
