//! Random histories: after every call the table is the image of the plain book's
//! orders, and the answer is the one the book's orders decide.

mod common;

use common::{
    in_version, made_table, order, priced, put_of_document_01, sizes, some_key, some_made,
    some_orders, walked_path,
};
use reference::book::Book;
use reference::calls::{self, Reply};
use reference::image::{image, is_image, is_image_by_rebuilding};
use reference::lists::{Order, Orders};
use reference::program::program;
use reference::samples::{random_seed, some_order, some_price, Xorshift, EDGE_KEYS};
use reference::seeks::some_seek;
use reference::sizes::{row, Made, P};

#[derive(Clone, Copy, Debug)]
enum Call {
    Check,
    Enter(u32, Order),
    Amend(u32, Order),
    Cancel(u32),
    Lookup(u32),
    Descent(u32, usize),
    Span(u32, u32, usize),
    Seek(u32, u32, u32),
}

/// A key that may be none.
fn any_key(generator: &mut Xorshift, made: &Made) -> u32 {
    match generator.below(20) {
        0 => generator.pick(&EDGE_KEYS),
        1 => generator.draw(),
        _ => some_key(generator, made),
    }
}

/// Mostly lo ≤ hi, of which many hold few orders.
fn any_range(generator: &mut Xorshift, made: &Made) -> (u32, u32) {
    let lo = any_key(generator, made);
    let hi = match generator.below(3) {
        0 => lo.saturating_add(generator.below(8)),
        _ => any_key(generator, made),
    };
    if generator.one_in(6) {
        (lo, hi)
    } else {
        (lo.min(hi), lo.max(hi))
    }
}

fn any_call(generator: &mut Xorshift, book: &Book) -> Call {
    let made = book.made();
    let key = any_key(generator, made);
    match generator.below(20) {
        0..=8 => {
            let mut new = some_order(generator, made.sizes.version);
            match generator.below(32) {
                0..=1 => {
                    (new.total, new.displayed) =
                        generator.pick(&[(0, 0), (0, 5), (100, 101), (1, u32::MAX)])
                }
                2 => new.price = 0,
                3 => new.price = some_price(generator),
                _ => {}
            }
            match generator.below(3) {
                0 => Call::Amend(key, new),
                _ => Call::Enter(key, new),
            }
        }
        9..=12 => Call::Cancel(key),
        13 => Call::Check,
        14 => Call::Lookup(key),
        15..=16 => {
            let blocks = generator
                .below(made.sizes.blocks + 2)
                .min(2 * made.sizes.beta());
            let length = (2 * blocks as usize + 1).saturating_sub(generator.below(3) as usize);
            Call::Descent(key, length)
        }
        17..=18 => {
            let (lo, hi) = any_range(generator, made);
            let orders = generator.below(made.sizes.orders + 2) as usize;
            let width = row(made.sizes.version);
            let length = (width * orders + 1).saturating_sub(generator.below(3) as usize);
            Call::Span(lo, hi, length)
        }
        _ => {
            let range = any_range(generator, made);
            let (lo, hi, r) = some_seek(generator, book.orders(), range);
            Call::Seek(lo, hi, r)
        }
    }
}

fn filled(length: usize) -> Vec<u8> {
    (0..length).map(|i| (i * 7 + 1) as u8).collect()
}

/// The reply and the output after the call.
fn ask(table: &mut [u8], call: Call) -> (Reply, Vec<u8>) {
    let mut output = Vec::new();
    let reply = match call {
        Call::Check => calls::check(table),
        Call::Enter(key, new) => calls::enter(table, key, new),
        Call::Amend(key, new) => calls::amend(table, key, new),
        Call::Cancel(key) => calls::cancel(table, key),
        Call::Lookup(key) => calls::lookup(table, key),
        Call::Descent(key, length) => {
            output = filled(length);
            calls::descent(table, key, &mut output).expect("an image")
        }
        Call::Span(lo, hi, length) => {
            output = filled(length);
            calls::span(table, lo, hi, &mut output)
        }
        Call::Seek(lo, hi, r) => calls::seek(table, lo, hi, r),
    };
    (reply, output)
}

fn are_keys(lo: u32, hi: u32) -> bool {
    lo != 0 && hi != 0 && lo < P && hi < P
}

/// The orders of the book in lo..hi.
fn in_range(book: &Book, lo: u32, hi: u32) -> Vec<(u32, Order)> {
    let orders = book.orders().iter().map(|(&key, &order)| (key, order));
    orders.filter(|&(key, _)| lo <= key && key <= hi).collect()
}

/// What the book decides for the call.
fn expected(book: &mut Book, call: Call) -> (Reply, Vec<u8>) {
    match call {
        Call::Check => (Reply::done(), vec![]),
        Call::Enter(key, new) => (Reply::refused(book.enter(key, new)), vec![]),
        Call::Amend(key, new) => (Reply::refused(book.amend(key, new)), vec![]),
        Call::Cancel(key) => (Reply::refused(book.cancel(key)), vec![]),
        Call::Lookup(key) => (expected_lookup(book, key), vec![]),
        Call::Descent(key, length) => expected_descent(book, key, length),
        Call::Span(lo, hi, length) => expected_span(book, lo, hi, length),
        Call::Seek(lo, hi, r) => (expected_seek(book, lo, hi, r), vec![]),
    }
}

fn expected_lookup(book: &Book, key: u32) -> Reply {
    match book.orders().get(&key) {
        _ if !are_keys(key, key) => Reply::refused(5),
        None => Reply::refused(9),
        Some(order) => Reply::order(key, order),
    }
}

fn expected_descent(book: &Book, key: u32, length: usize) -> (Reply, Vec<u8>) {
    let mut output = filled(length);
    let reply = expected_lookup(book, key);
    if reply.number == 5 {
        return (reply, output);
    }
    let table = image(book.made(), book.orders()).expect("a book's orders fit");
    let path = walked_path(&table, key);
    if 2 * path.len() > length {
        return (Reply::refused(11), output);
    }
    for (place, block) in path.iter().enumerate() {
        output[2 * place..2 * place + 2].copy_from_slice(&block.to_be_bytes());
    }
    let count = path.len() as u32;
    (Reply { count, ..reply }, output)
}

fn expected_span(book: &Book, lo: u32, hi: u32, length: usize) -> (Reply, Vec<u8>) {
    let mut output = filled(length);
    if !are_keys(lo, hi) {
        return (Reply::refused(5), output);
    }
    if lo > hi {
        return (Reply::refused(10), output);
    }
    let found = in_range(book, lo, hi);
    let mut written = Vec::new();
    for (key, order) in &found {
        for number in [*key, order.total, order.displayed] {
            written.extend(number.to_be_bytes());
        }
        if book.made().sizes.version == 2 {
            written.extend(order.price.to_be_bytes());
        }
    }
    if written.len() > length {
        return (Reply::refused(11), output);
    }
    output[..written.len()].copy_from_slice(&written);
    (
        Reply {
            count: found.len() as u32,
            ..Reply::done()
        },
        output,
    )
}

fn expected_seek(book: &Book, lo: u32, hi: u32, r: u32) -> Reply {
    if !are_keys(lo, hi) {
        return Reply::refused(5);
    }
    if lo > hi {
        return Reply::refused(10);
    }
    // Of a hidden order nothing is reserve; in another r more can be displayed.
    let has = |(_, order): &(u32, Order)| match order.displayed {
        0 => r == 0,
        displayed => displayed
            .checked_add(r)
            .map_or(false, |sum| sum <= order.total),
    };
    let having = in_range(book, lo, hi).into_iter().filter(has);
    match having.min_by_key(|&(key, _)| key) {
        Some((key, order)) => Reply {
            number: 0,
            key,
            total: order.total,
            displayed: order.displayed,
            price: order.price,
            count: 0,
        },
        None => Reply::refused(12),
    }
}

/// One history; counts the numbers answered.
fn history(generator: &mut Xorshift, made: Made, calls: u32, seen: &mut [u32; 15]) {
    let mut table = made_table(&made);
    let mut book = Book::new(made);
    assert_eq!(table, image(&made, &Orders::new()).unwrap());
    for _ in 0..calls {
        let call = any_call(generator, &book);
        let before = table.clone();
        let found = ask(&mut table, call);
        assert_eq!(found, expected(&mut book, call), "{call:?} {made:?}");
        assert_eq!(
            table,
            image(&made, book.orders()).unwrap(),
            "{call:?} {made:?}"
        );
        assert!(
            is_image(&table) && is_image_by_rebuilding(&table),
            "{call:?} {made:?}"
        );
        let edit = matches!(call, Call::Enter(..) | Call::Amend(..) | Call::Cancel(_));
        if found.0.number != 0 || !edit {
            assert_eq!(table, before, "{call:?} {made:?}");
        }
        seen[found.0.number as usize] += 1;
    }
}

#[test]
fn tables_follow_the_book() {
    let mut generator = Xorshift::new(31);
    let mut seen = [0; 15];
    for _ in 0..400 {
        let made = some_made(&mut generator);
        history(&mut generator, made, 150, &mut seen);
    }
    let expected = [0, 5, 6, 7, 8, 9, 10, 11, 12, 13, 14];
    assert!(
        expected.iter().all(|&number: &usize| seen[number] > 300),
        "{seen:?}"
    );
    assert_eq!(seen[1] + seen[2] + seen[3] + seen[4], 0, "{seen:?}");
}

#[test]
fn a_larger_table_follows_the_book() {
    let mut generator = Xorshift::new(32);
    let made = Made {
        sizes: sizes(3, 4, 300, 260),
        seed: random_seed(&mut generator),
    };
    for version in [1, 2] {
        let mut seen = [0; 15];
        history(&mut generator, in_version(version, made), 2500, &mut seen);
        assert!(seen[0] > 700 && seen[7] + seen[8] > 30, "{seen:?}");
    }
}

/// Two histories that end with the same orders: one enters them straight away, the
/// other enters others, amends and cancels on its way.
#[test]
fn equal_sets_have_equal_bytes() {
    let mut generator = Xorshift::new(33);
    let mut largest = 0;
    for _ in 0..600 {
        let made = some_made(&mut generator);
        let wanted = some_orders(&mut generator, &made, 60);
        let mut keys: Vec<u32> = wanted.keys().copied().collect();
        generator.shuffle(&mut keys);

        let mut straight = made_table(&made);
        each(&keys, &wanted, |key, order| {
            calls::enter(&mut straight, key, order)
        });

        let mut roundabout = made_table(&made);
        for _ in 0..40 {
            let key = some_key(&mut generator, &made);
            let order = some_order(&mut generator, made.sizes.version);
            put(&mut roundabout, key, order);
            calls::cancel(&mut roundabout, some_key(&mut generator, &made));
        }
        let (_, found) = reference::image::held(&roundabout).unwrap();
        for key in found.keys().filter(|key| !wanted.contains_key(key)) {
            assert_eq!(calls::cancel(&mut roundabout, *key).number, 0);
        }
        generator.shuffle(&mut keys);
        each(&keys, &wanted, |key, order| {
            put(&mut roundabout, key, order)
        });
        assert!(straight == roundabout, "{made:?} {wanted:?}");
        largest = largest.max(wanted.len());
    }
    assert!(largest > 30, "{largest}");
}

/// Amends a held key and enters any other.
fn put(table: &mut [u8], key: u32, new: Order) -> Reply {
    let is_held = calls::lookup(table, key).number == 0;
    let call = if is_held { calls::amend } else { calls::enter };
    call(table, key, new)
}

/// Every one of these orders in turn; none is turned down.
fn each(keys: &[u32], orders: &Orders, mut call: impl FnMut(u32, Order) -> Reply) {
    for &key in keys {
        assert_eq!(call(key, orders[&key]), Reply::done(), "{key}");
    }
}

/// The book alone: each question, and that a refusal leaves the set.
#[test]
fn the_book_asks_in_order() {
    let mut book = Book::new(common::document());
    assert!(book.orders().is_empty());
    assert_eq!(book.enter(3, order(100, 20)), 0);
    assert_eq!(book.enter(4, order(10, 0)), 8);
    assert_eq!(book.enter(6, order(50, 50)), 0);
    let set: Orders = [(3, order(100, 20)), (6, order(50, 50))].into();
    for (key, total, displayed, enter, amend) in [
        (0, 0, 1, 5, 5),
        (P, 1, 1, 5, 5),
        (u32::MAX, 1, 1, 5, 5),
        (4, 0, 0, 6, 6),
        (3, 1, 2, 6, 6),
        (4, 10, 0, 7, 9),
    ] {
        assert_eq!(book.enter(key, order(total, displayed)), enter);
        assert_eq!(book.amend(key, order(total, displayed)), amend);
        assert_eq!(*book.orders(), set);
    }
    for key in [3, 6] {
        assert_eq!(book.enter(key, order(7, 0)), 13);
        assert_eq!(*book.orders(), set);
    }
    for (key, number) in [(0, 5), (P, 5), (u32::MAX, 5), (4, 9)] {
        assert_eq!(book.cancel(key), number);
        assert_eq!(*book.orders(), set);
    }
    assert_eq!(book.amend(3, order(7, 0)), 0);
    assert_eq!(
        *book.orders(),
        [(3, order(7, 0)), (6, order(50, 50))].into()
    );
    assert_eq!(book.cancel(3), 0);
    assert_eq!(book.cancel(3), 9);
    assert_eq!(*book.orders(), [(6, order(50, 50))].into());
}

/// The book of a table of version 2 is given the version: 14 is none of its numbers,
/// price 0 is a "no" to 6, and amend replaces the price. In version 1 14 comes first.
#[test]
fn the_book_asks_for_the_price() {
    let mut first = Book::new(common::document());
    assert_eq!(first.enter(3, order(100, 20)), 0);
    for (key, total) in [(0, 0), (3, 100), (4, 0), (4, 10)] {
        assert_eq!(first.enter(key, priced(total, 0, 1)), 14);
        assert_eq!(first.amend(key, priced(total, 0, 1)), 14);
    }
    assert_eq!(*first.orders(), [(3, order(100, 20))].into());

    let mut book = Book::new(in_version(2, common::document()));
    assert_eq!(book.enter(3, priced(100, 20, 1)), 0);
    for (key, number) in [(0, 5), (P, 5), (3, 6), (4, 6)] {
        assert_eq!(book.enter(key, order(10, 5)), number);
        assert_eq!(book.amend(key, order(10, 5)), number);
    }
    assert_eq!(*book.orders(), [(3, priced(100, 20, 1))].into());
    assert_eq!(book.amend(3, priced(100, 20, u32::MAX)), 0);
    assert_eq!(*book.orders(), [(3, priced(100, 20, u32::MAX))].into());
}

/// The text program on random lines, against text written from the book. Its `put`
/// prints what document 01's put does.
#[test]
fn the_program_follows_the_book() {
    let mut generator = Xorshift::new(34);
    let mut lines = 0;
    for _ in 0..60 {
        let made = in_version(1, some_made(&mut generator));
        if made.sizes.length() > 65_536 {
            continue;
        }
        let mut input = make_line(&made);
        let mut output = "0\n".to_string();
        let mut book = Book::new(made);
        for _ in 0..100 {
            let call = any_call(&mut generator, &book);
            if let Some((line, answer)) = text(&mut book, call) {
                input += &line;
                output += &answer;
                lines += 1;
            }
        }
        let found = String::from_utf8(program(input.as_bytes())).unwrap();
        assert_eq!(found, output, "{input}");
    }
    assert!(lines > 3000, "{lines}");
}

fn make_line(made: &Made) -> String {
    let s = &made.sizes;
    let mut line = format!("make {} {} {} {}", s.gamma, s.nodes, s.orders, s.blocks);
    for number in made.seed.a.iter().chain(&made.seed.b) {
        line += &format!(" {number}");
    }
    line + "\n"
}

/// Document 01's put. Of the book's two calls the one that fits does the same, and
/// the other is turned down.
fn put_in_book(book: &mut Book, key: u32, new: Order) -> Reply {
    let mut wanted = book.orders().clone();
    let number = put_of_document_01(book.made(), &mut wanted, key, new);
    book.amend(key, new);
    book.enter(key, new);
    assert_eq!(*book.orders(), wanted);
    Reply::refused(number)
}

/// What a line can say: "The program keeps to version 1".
fn without_price(new: Order) -> Order {
    order(new.total, new.displayed)
}

/// The line and the lines it is answered by; the program has no check and no
/// descent.
fn text(book: &mut Book, call: Call) -> Option<(String, String)> {
    let call = match call {
        Call::Span(lo, hi, _) => Call::Span(lo, hi, 65_536),
        other => other,
    };
    let Reply {
        number,
        key,
        total,
        displayed,
        count,
        ..
    } = match call {
        Call::Enter(key, new) | Call::Amend(key, new) => put_in_book(book, key, without_price(new)),
        _ => expected(book, call).0,
    };
    let refused = number != 0;
    let (line, answer) = match call {
        Call::Check | Call::Descent(..) => return None,
        Call::Enter(key, new) | Call::Amend(key, new) => {
            let (total, displayed) = (new.total, new.displayed);
            (format!("put {key} {total} {displayed}"), "0".into())
        }
        Call::Cancel(key) => (format!("cancel {key}"), "0".into()),
        Call::Lookup(key) => (format!("show {key}"), format!("0 {total} {displayed}")),
        Call::Seek(lo, hi, r) => (
            format!("seek {lo} {hi} {r}"),
            format!("0 {key} {total} {displayed}"),
        ),
        Call::Span(lo, hi, _) => {
            let mut answer = format!("0 {count}");
            for (key, order) in in_range(book, lo, hi) {
                answer += &format!("\n{key} {} {}", order.total, order.displayed);
            }
            (format!("span {lo} {hi}"), answer)
        }
    };
    let answer = if refused { number.to_string() } else { answer };
    Some((line + "\n", answer + "\n"))
}
