//! How many frames, records, calls and captures there were, and their outcomes by the answers of
//! `second`.

/// One count for done and one for each refusal number.
const OUTCOMES: usize = 18;

pub type Outcomes = [u64; OUTCOMES];

#[derive(Clone, Debug, Default, PartialEq, Eq)]
pub struct Tally {
    /// Frames that were given to a reader.
    pub frames: Outcomes,
    /// Records that were to be written.
    pub records: Outcomes,
    /// Openings and replies in scripts.
    pub calls: Outcomes,
    /// The frames found in captures: opened, collected, dynamic and refused.
    pub fates: [u64; 4],
    /// Captures that are too long to have a list.
    pub too_long: u64,
}

impl Tally {
    pub fn take_case(&mut self, case: &str, answer: &[String]) {
        let word = case.split(' ').next().unwrap_or("");
        let first = answer.first().map(String::as_str).unwrap_or("");
        if word.starts_with("damage-") {
            for line in answer {
                self.take_damage(line);
            }
        } else if word.starts_with("read-") {
            count(&mut self.frames, number_of(first), 1);
        } else if word.starts_with("write-") {
            count(&mut self.records, number_of(first), 1);
        } else if word == "open" || word == "reply" {
            count(&mut self.calls, number_of(first), 1);
        }
    }

    /// Takes one line of a damage answer: `PLACE COUNT*NUMBER.OFFSET.SPOILED ..`
    fn take_damage(&mut self, line: &str) {
        for run in line.split(' ').skip(1) {
            if let Some((frames, outcome)) = run.split_once('*') {
                let number = outcome.split('.').next().and_then(|word| word.parse().ok());
                count(&mut self.frames, number, frames.parse().unwrap_or(0));
            }
        }
    }

    /// Takes the list of one capture.
    pub fn take_list(&mut self, list: &[String]) {
        let counts = list.last().and_then(|line| line.strip_prefix("end\t"));
        match counts {
            Some(counts) => {
                for (fate, count) in self.fates.iter_mut().zip(counts.split('\t')) {
                    *fate += count.parse::<u64>().unwrap_or(0);
                }
            }
            None => self.too_long += 1,
        }
    }

    pub fn add(&mut self, other: &Tally) {
        add_all(&mut self.frames, &other.frames);
        add_all(&mut self.records, &other.records);
        add_all(&mut self.calls, &other.calls);
        add_all(&mut self.fates, &other.fates);
        self.too_long += other.too_long;
    }
}

/// The number that an answer begins with.
fn number_of(answer: &str) -> Option<usize> {
    answer.split(' ').next()?.parse().ok()
}

fn count(outcomes: &mut Outcomes, number: Option<usize>, more: u64) {
    if let Some(outcome) = number.and_then(|number| outcomes.get_mut(number)) {
        *outcome += more;
    }
}

fn add_all(sums: &mut [u64], more: &[u64]) {
    for (sum, more) in sums.iter_mut().zip(more) {
        *sum += more;
    }
}

#[cfg(test)]
mod tests {
    use super::*;
    use crate::answers;

    fn tally(cases: &str) -> Tally {
        let mut tally = Tally::default();
        let answers = answers::by_case(cases.as_bytes()).expect("cases");
        for (case, answer) in cases.lines().zip(&answers) {
            tally.take_case(case, answer);
        }
        tally
    }

    #[test]
    fn single_cases() {
        let request = "11522031303037303030303050303030303032303030530d";
        let tally = tally(&format!(
            "read-request -\nread-request {request}\nread-reply {request}\n\
             write-request 0 32 49 7 0 80 0 2 0 83\nlend 0 0\nopen {request}\nopen {request}\n\
             used\nreset\n"
        ));
        assert_eq!((tally.frames[0], tally.frames[1]), (1, 2));
        assert_eq!((tally.records[7], tally.records.iter().sum()), (1, 1));
        assert_eq!((tally.calls[0], tally.calls[11]), (1, 1));
        assert_eq!(tally.calls.iter().sum::<u64>(), 2);
    }

    #[test]
    fn damage_asks_256_values_at_each_place() {
        let request = "11522031303037303030303050303030303032303030530d";
        let tally = tally(&format!("damage-request {request}\n"));
        assert_eq!(tally.frames.iter().sum::<u64>(), 256 * 24);
        // One value of the lead byte is good, and 255 are not. Eleven addresses are good.
        assert_eq!(tally.frames[1], 255);
        assert_eq!(tally.frames[2], 0);
        assert_eq!((tally.frames[3], tally.frames[4]), (255, 255 + 245));
    }

    #[test]
    fn lists_and_sums() {
        let mut tally = Tally::default();
        tally.take_list(&["seat".to_string(), "end\t2\t3\t0\t1".to_string()]);
        tally.take_list(&["input too long".to_string()]);
        let mut sum = tally.clone();
        sum.add(&tally);
        assert_eq!((sum.fates, sum.too_long), ([4, 6, 0, 2], 2));
    }
}
