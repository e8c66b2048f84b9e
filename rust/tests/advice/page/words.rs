use quic_version::{choose, choose_from_word, count_held, list_word, Refusal};

fn main() -> Result<(), Refusal> {
    let table = [14, 12, 10]; // best first

    // What two servers listed, each as one word.
    let first = list_word(&table, &[10, 13])?;
    let second = list_word(&table, &[12, 10])?;
    assert_eq!((first, second), (0b100, 0b110));

    // The best version that at least one of them has: as from both lists, joined.
    assert_eq!(choose_from_word(&table, first | second)?, 12);
    assert_eq!(choose(&table, &[10, 13, 12, 10])?, 12);

    // How many of our versions the second one has.
    assert_eq!(second.count_ones() as usize, count_held(&table, &[12, 10])?);

    // Nothing in common is the word 0, and no refusal; to choose from it is one.
    assert_eq!(list_word(&table, &[13])?, 0);
    assert_eq!(choose_from_word(&table, 0), Err(Refusal::NothingInCommon));
    Ok(())
}
