//! Common pages by the step rule, from any bound on, and what it counts.

use super::seek::{seek, Cursor, Formed};

/// The pages that were listed, and the seeks and looks that it took.
#[derive(Clone, Debug, PartialEq, Eq)]
pub struct Met {
    /// The pages.
    pub pages: Vec<u32>,
    /// Every seek counts one.
    pub seeks: u32,
    /// The looks of all seeks.
    pub looks: u32,
}

/// One seek, as it was made.
pub struct Step<'a> {
    /// The list that it was made on.
    pub on: Formed<'a>,
    /// The cursor before it.
    pub before: Cursor,
    /// What was sought.
    pub bound: u32,
    /// The page found.
    pub found: Option<u32>,
    /// Its looks.
    pub looks: u32,
}

/// Lists the pages from a bound on that all of the lists hold, in the question's order, until there are so many.
pub fn meet(lists: Vec<Formed>, from: u32, most: usize) -> Met {
    meet_watched(lists, from, most, &mut |_| {})
}

/// The same, where each seek is shown as it is made.
pub fn meet_watched(
    mut lists: Vec<Formed>,
    from: u32,
    most: usize,
    watch: &mut dyn FnMut(Step),
) -> Met {
    let length = |on: &Formed| on.list.elements.len();
    let shortest = lists.iter().map(length).min();
    let lead = lists.iter().position(|on| Some(length(on)) == shortest);
    let lead = lists.remove(lead.expect("a question has a word"));
    let mut meeting = Meeting {
        lead: Seeker::on(lead),
        others: lists.into_iter().map(Seeker::on).collect(),
        watch,
        seeks: 0,
        looks: 0,
    };
    let pages = meeting.common_pages(from, most);
    Met {
        pages,
        seeks: meeting.seeks,
        looks: meeting.looks,
    }
}

/// A list with the cursor that seeks on it.
struct Seeker<'a> {
    on: Formed<'a>,
    cursor: Cursor,
}

impl<'a> Seeker<'a> {
    fn on(on: Formed<'a>) -> Seeker<'a> {
        Seeker {
            on,
            cursor: Cursor::Fresh,
        }
    }

    fn seek(&mut self, bound: u32) -> Step<'a> {
        let (on, before) = (self.on, self.cursor);
        let (found, looks) = seek(on, &mut self.cursor, bound);
        Step {
            on,
            before,
            bound,
            found,
            looks,
        }
    }
}

/// The lead and the others on their way through common pages.
struct Meeting<'a, 'w> {
    lead: Seeker<'a>,
    others: Vec<Seeker<'a>>,
    watch: &'w mut dyn FnMut(Step),
    seeks: u32,
    looks: u32,
}

/// What the others answer when each is sought for the lead's page.
enum Round {
    AllThere,
    Ahead(u32),
    OneSpent,
}

impl Meeting<'_, '_> {
    fn common_pages(&mut self, from: u32, most: usize) -> Vec<u32> {
        let mut pages = Vec::new();
        let mut wanted = from;
        while pages.len() < most {
            let Some(page) = self.seek_lead(wanted) else {
                break;
            };
            match self.seek_others(page) {
                Round::AllThere => {
                    pages.push(page);
                    wanted = page + 1;
                }
                Round::Ahead(further) => wanted = further,
                Round::OneSpent => break,
            }
        }
        pages
    }

    fn seek_lead(&mut self, wanted: u32) -> Option<u32> {
        let step = self.lead.seek(wanted);
        self.count(step)
    }

    /// Counts a seek, and gives the page that it has found.
    fn count(&mut self, step: Step) -> Option<u32> {
        let found = step.found;
        self.seeks += 1;
        self.looks += step.looks;
        (self.watch)(step);
        found
    }

    fn seek_others(&mut self, page: u32) -> Round {
        for other in 0..self.others.len() {
            let step = self.others[other].seek(page);
            match self.count(step) {
                None => return Round::OneSpent,
                Some(further) if further > page => return Round::Ahead(further),
                Some(_) => {}
            }
        }
        Round::AllThere
    }
}

#[cfg(test)]
mod tests {
    use super::*;
    use crate::gen::cards;
    use crate::gen::random::Random;
    use crate::plain::edition::Form;
    use crate::plain::list::List;

    fn s1_and(pages: &[u32]) -> [List; 2] {
        let on = |elements| List {
            bound: 44,
            elements,
        };
        [on(vec![3, 4, 7, 13, 14, 15, 21, 43]), on(pages.to_vec())]
    }

    fn met(lists: &[List], from: u32, most: usize) -> (Vec<u32>, u32, u32) {
        let lists = lists.iter().map(|list| Formed::of(list, Form::Runs));
        let met = meet(lists.collect(), from, most);
        (met.pages, met.seeks, met.looks)
    }

    #[test]
    fn s12_is_stopped_behind_the_last_page_wanted() {
        let lists = s1_and(&[4, 15]);
        assert_eq!(met(&lists, 0, usize::MAX), (vec![4, 15], 5, 5));
        assert_eq!(met(&lists, 0, 3), (vec![4, 15], 5, 5));
        assert_eq!(met(&lists, 0, 2), (vec![4, 15], 4, 4));
        assert_eq!(met(&lists, 0, 1), (vec![4], 2, 2));
        assert_eq!(met(&lists, 5, 1), (vec![15], 2, 2));
        assert_eq!(met(&lists, 16, 1), (vec![], 1, 1));
        assert_eq!(met(&lists, 44, 1), (vec![], 1, 0));
        assert_eq!(met(&lists, u32::MAX, 1), (vec![], 1, 0));
    }

    #[test]
    fn the_first_common_pages_from_the_bound_on_are_listed() {
        let mut random = Random::of_case(11, 0, 0);
        for _ in 0..400 {
            let card = cards::small_card(&mut random);
            let terms: Vec<_> = card
                .words
                .iter()
                .map(|word| word.term(card.edition, card.pages))
                .collect();
            let lists: Vec<&List> = terms.iter().map(|term| &term.pages).take(3).collect();
            let from = random.from_to(0, card.pages);
            let most = random.from_to(1, 4) as usize;
            let on_all = |page: &u32| lists.iter().all(|list| list.elements.contains(page));
            let common: Vec<u32> = (from..card.pages).filter(on_all).take(most).collect();
            let mut in_some_form = |list| Formed::of(list, random.pick(&Form::ALL));
            let mixed = lists.iter().map(|list| in_some_form(list)).collect();
            let met_mixed = meet(mixed, from, most);
            let in_runs = lists.iter().map(|list| Formed::of(list, Form::Runs));
            let met_in_runs = meet(in_runs.collect(), from, most);
            assert_eq!(met_mixed.pages, common);
            assert_eq!(met_in_runs.pages, common);
            assert_eq!(met_mixed.seeks, met_in_runs.seeks);
        }
    }
}
