use super::*;

/// An item is a name, or a pair that `split` takes apart and `join` makes.
#[derive(Clone, Debug, PartialEq)]
enum Item {
    One(&'static str),
    Pair(Box<Item>, Box<Item>),
}

use Item::One;

fn pair(a: Item, b: Item) -> Item {
    Item::Pair(Box::new(a), Box::new(b))
}

/// Applies the steps of a text to these items. It uses the places that the text names, not the context of a walk.
fn done(text: &str, mut items: Vec<Item>) -> Vec<Item> {
    for step in text.split(" $").map(str::trim).filter(|step| !step.is_empty()) {
        let places: Vec<usize> = step.split(|c: char| !c.is_ascii_digit()).filter_map(|n| n.parse().ok()).collect();
        let chosen: Vec<Item> = places.iter().map(|place| items[*place].clone()).collect();
        match step.split(' ').next() {
            Some("move") => {
                let others = items.iter().enumerate().filter(|(i, _)| !places.contains(i)).map(|(_, item)| item);
                items = chosen.into_iter().chain(others.cloned()).collect();
            }
            Some("keep") => items = chosen,
            Some("split") => match items.remove(0) {
                Item::Pair(a, b) => drop(items.splice(..0, [*a, *b])),
                One(name) => panic!("{name} is not a pair"),
            },
            Some("join") => {
                let (a, b) = (items.remove(0), items.remove(0));
                items.insert(0, pair(a, b));
            }
            step => panic!("{step:?} is not a step"),
        }
    }
    items
}

fn words(text: &str) -> Vec<String> {
    text.split(' ').map(str::to_string).collect()
}

#[test]
fn front_names_the_places() {
    let mut w = Walk::new(0, &["a", "b", "c", "d"]);
    w.front(&["c", "a"]);
    assert_eq!((w.text().as_str(), w.context.clone()), ("move ! (2 ∷ 0 ∷ []) $", words("c a b d")));
    w.front(&["d"]);
    assert_eq!(w.text(), "move ! (2 ∷ 0 ∷ []) $ move ! (3 ∷ []) $");
    assert_eq!(w.context, words("d c a b"));
    let items = ["a", "b", "c", "d"].map(One).to_vec();
    assert_eq!(done(&w.text(), items), ["d", "c", "a", "b"].map(One));
}

#[test]
fn front_is_silent_where_nothing_moves() {
    let mut w = Walk::new(0, &["a", "b", "c"]);
    w.front(&["a"]);
    w.front(&["a", "b"]);
    assert_eq!((w.text().as_str(), w.context.clone()), ("", words("a b c")));
    w.front(&["b", "a"]);
    assert_eq!((w.text().as_str(), w.context), ("move ! (1 ∷ 0 ∷ []) $", words("b a c")));
}

#[test]
fn keep_names_the_places_and_drops_the_rest() {
    let mut w = Walk::new(0, &["a", "b", "c", "d"]);
    w.keep(&["d", "b"]);
    assert_eq!((w.text().as_str(), w.context.clone()), ("keep ! (3 ∷ 1 ∷ []) $", words("d b")));
    assert_eq!(done(&w.text(), ["a", "b", "c", "d"].map(One).to_vec()), ["d", "b"].map(One));
}

#[test]
fn swap_and_binds_take_from_the_head() {
    let mut w = Walk::new(0, &["a", "b", "c"]);
    w.swap("fjoin !", 2, &["ab"]);
    assert_eq!((w.text().as_str(), w.context.clone()), ("fjoin ! $", words("ab c")));
    w.binds("pick ! (λ r.", 1, &["x", "y"]);
    assert_eq!((w.context.clone(), w.parens), (words("x y c"), 1));
    w.rename("z");
    assert_eq!(w.context, words("z y c"));
    w.ends("by ! e", 0);
    assert_eq!((w.text().as_str(), w.parens), ("fjoin ! $ pick ! (λ r.\nby ! e)", 0));
}

#[test]
fn split_all_leaves_the_rest_at_the_head() {
    let mut w = Walk::new(0, &["all", "other"]);
    w.split_all("split", &words("a b c"), "rest");
    let one = "split ! $ move ! (1 ∷ []) $";
    assert_eq!(w.text(), [one, one, one].join(" "));
    assert_eq!(w.context, words("rest c b a other"));
    let all = pair(One("a"), pair(One("b"), pair(One("c"), One("rest"))));
    assert_eq!(done(&w.text(), vec![all, One("other")]), ["rest", "c", "b", "a", "other"].map(One));
}

#[test]
fn split_all_of_no_parts_does_nothing() {
    let mut w = Walk::new(0, &["all"]);
    w.split_all("split", &[], "rest");
    assert_eq!((w.text().as_str(), w.context), ("", words("all")));
}

#[test]
fn join_all_makes_one_item_at_the_head() {
    let mut w = Walk::new(0, &["b", "other", "rest", "a"]);
    let whole = w.join_all("join", &words("a b"), "rest", "all");
    assert_eq!(whole, "all from a");
    assert_eq!(w.text(), "move ! (0 ∷ 2 ∷ []) $ join ! $ move ! (2 ∷ 0 ∷ []) $ join ! $");
    assert_eq!(w.context, [whole.as_str(), "other"]);
    let items = ["b", "other", "rest", "a"].map(One).to_vec();
    assert_eq!(done(&w.text(), items), [pair(One("a"), pair(One("b"), One("rest"))), One("other")]);
}

#[test]
fn join_all_of_no_parts_is_the_rest() {
    let mut w = Walk::new(0, &["a", "rest"]);
    assert_eq!(w.join_all("join", &[], "rest", "all"), "rest");
    assert_eq!((w.text().as_str(), w.context), ("", words("a rest")));
}

#[test]
fn what_is_split_joins_again() {
    let mut w = Walk::new(0, &["x", "all", "y"]);
    w.front(&["all"]);
    w.split_all("split", &words("a b c"), "rest");
    w.front(&["b", "y"]);
    let whole = w.join_all("join", &words("a b c"), "rest", "all");
    assert_eq!(w.context, [whole.as_str(), "y", "x"]);
    let all = pair(One("a"), pair(One("b"), pair(One("c"), One("rest"))));
    let items = done(&w.text(), vec![One("x"), all.clone(), One("y")]);
    assert_eq!(items, [all, One("y"), One("x")]);
}

#[test]
fn cells_stand_before_the_other_items() {
    let w = Walk::new(3, &["a"]);
    assert_eq!(w.context, words("L2 D2 L1 D1 L0 D0 a"));
    assert_eq!([w.cell(0), w.cell(1), w.cell(2), w.at("a")], [4, 2, 0, 6]);
}

#[test]
fn locals_are_allocated_and_freed_in_order() {
    let mut w = Walk::new(2, &["a"]);
    w.allocate();
    w.assign(1, "v", "tt");
    w.free();
    let lines = [
        "alloc1 ! (λ l₀. alloc1 ! (λ l₁. alloc0 ! $ params1 ! $",
        "assigns ! v (from ! (stop !)) (init ! 0 refl tt) $",
        "forget ! 0 refl $",
        "move ! (2 ∷ 3 ∷ []) $ free1 ! $ free1 ! $ free0 ! $",
    ];
    assert_eq!(w.text(), lines.join("\n"));
    assert_eq!((w.context, w.parens), (words("a"), 2));
    assert_eq!([local(0), local(9), local(120)], ["l₀", "l₉", "l₁₂₀"]);
}

#[test]
fn a_local_that_has_a_value_is_overwritten() {
    let mut w = Walk::new(2, &["a"]);
    w.assign(1, "v", "tt");
    let mark = w.mark();
    w.assign(1, "u", "tt");
    w.lands(0, "tt");
    let lines = [
        "",
        "assigns ! v (from ! (stop !)) (init ! 0 refl tt) $",
        "assigns ! u (from ! (stop !)) (store ! 0 refl tt) $",
        "land ! (from ! (stop !)) (init ! 2 refl tt) $",
    ];
    assert_eq!(w.text(), lines.join("\n"));
    // it is forgotten once
    w.free();
    assert!(w
        .text()
        .ends_with("\nforget ! 2 refl $ forget ! 0 refl $\nmove ! (2 ∷ 3 ∷ []) $ free1 ! $ free1 ! $ free0 ! $"));
    // before the mark only one local had a value
    w.back(mark);
    assert_eq!([w.init(0, "tt"), w.init(1, "tt")], ["(init ! 2 refl tt)", "(store ! 0 refl tt)"]);
}

#[test]
fn slices_and_arrays_are_lent_again() {
    let mut w = Walk::new(4, &["a"]);
    w.reborrow(0, (1, 2), "tt");
    w.reborrow_array(0, 3);
    let lines = [
        "",
        "assigns ! (addr ! (from ! (fld ! refl (hop ! (look-in ! 6 (sub ! 0 refl (whole !))) (stop !))))) (from ! (stop !)) \
         (init ! 4 refl (tt, tt)) $",
        "assigns ! (agg ! (and-then ! (load ! (from ! (stop !)) (look ! 4 refl)) (and-then ! (load ! (from ! (fld ! refl \
         (stop !))) (look-in ! 6 (sub ! 1 refl (whole !)))) (no-more !)))) (from ! (stop !)) (init ! 2 refl tt) $",
        "assigns ! (addr ! (from ! (hop ! (look ! 6 refl) (stop !)))) (from ! (stop !)) (init ! 0 refl (tt, tt)) $",
    ];
    assert_eq!(w.text(), lines.join("\n"));
}

#[test]
fn a_walk_goes_back_to_a_mark() {
    let mut w = Walk::new(1, &["a"]);
    let mark = w.mark();
    w.opens("(λ x.");
    w.lands(0, "tt");
    w.swap("nothing !", 0, &["b"]);
    w.back(mark);
    assert_eq!((w.context, w.full.len(), w.parens), (words("L0 D0 a"), 0, 0));
}

#[test]
fn operands_are_nested() {
    assert_eq!(operands(&[]), "(no-more !)");
    assert_eq!(operands(&words("a b")), "(and-then ! a (and-then ! b (no-more !)))");
    assert_eq!(copy(7), "(load ! (from ! (stop !)) (look ! 7 refl))");
    assert_eq!(field(7, 1), "(load ! (from ! (fld ! refl (stop !))) (look-in ! 7 (sub ! 1 refl (whole !))))");
}

#[test]
#[should_panic(expected = "c is not in the context")]
fn an_item_that_is_not_there_has_no_place() {
    Walk::new(0, &["a", "b"]).front(&["c"]);
}

#[test]
#[should_panic(expected = "is in the context twice")]
fn no_two_items_have_one_name() {
    Walk::new(0, &["a", "b"]).swap("nothing !", 0, &["b"]);
}
