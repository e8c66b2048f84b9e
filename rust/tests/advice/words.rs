//! Runs the page's lists as words, and what it warns of.

include!("page/words.rs");

#[test]
fn words_of_the_page() {
    main().unwrap();
}

/// "A word belongs to the table that it was made with": with another, a bit stands for another
/// version, or for none.
#[test]
fn word_of_another_table() {
    let word = list_word(&[14, 12, 10], &[10]).unwrap();
    assert_eq!(choose_from_word(&[14, 12, 10], word), Ok(10));
    assert_eq!(choose_from_word(&[10, 12, 14], word), Ok(14));
    assert_eq!(
        choose_from_word(&[12, 10], word),
        Err(Refusal::NothingInCommon)
    );
}

/// "For one list `choose` is enough. It answers the same".
#[test]
fn one_list_by_either_way() {
    let table = [14, 12, 10];
    for list in [&[10, 13, 14][..], &[12, 10], &[13], &[]] {
        assert_eq!(
            quic_version::choose_by_word(&table, list),
            choose(&table, list)
        );
    }
}
