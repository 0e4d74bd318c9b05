//! The line of steps that leads to each step (02, A7): the steps before it, but
//! for those that a return has left behind.

use model::step_record::{Step, RETURN, SAVE};

/// The lines of a run's steps so far.
#[derive(Clone, Debug, Default)]
pub struct Lines {
    /// The step that each step follows on its line: the one before it, or for a
    /// return the save. Step k is at index k - 1, and 0 is before the first.
    follows: Vec<usize>,
    /// Each step that saved a state, in order, with the state's name.
    saves: Vec<(usize, u8)>,
}

impl Lines {
    /// Follows the lines through one step. To be called for each step in turn.
    pub fn follow(&mut self, step: &Step, refused: bool) {
        let before = self.follows.len();
        let number = before + 1;
        let saved = match (step.kind, refused) {
            (RETURN, false) => self.saved_before(number, step.place),
            _ => None,
        };
        self.follows.push(saved.unwrap_or(before));
        if step.kind == SAVE && !refused {
            self.saves.push((number, step.place));
        }
    }

    /// Returns the step that has saved the state of this name.
    pub fn saved_in(&self, name: u8) -> Option<usize> {
        self.saved_before(self.follows.len() + 1, name)
    }

    /// Returns the step that had saved the state of this name when this step was
    /// taken.
    pub fn saved_before(&self, step: usize, name: u8) -> Option<usize> {
        let saves = self.saves.iter().rev();
        let mut saves = saves.filter(|&&(saved, of)| saved < step && of == name);
        saves.next().map(|&(saved, _)| saved)
    }

    /// Returns the step that this one follows on its line.
    pub fn before(&self, step: usize) -> usize {
        self.follows[step - 1]
    }

    /// Returns the line that ends with this step, from its end to its beginning.
    pub fn back_from(&self, step: usize) -> impl Iterator<Item = usize> + '_ {
        let before = |&step: &usize| Some(self.before(step)).filter(|&before| before > 0);
        std::iter::successors(Some(step).filter(|&step| step > 0), before)
    }

    /// Returns of each step so far whether it is on the line that ends with this
    /// one. Step k is at index k - 1.
    pub fn on_line(&self, step: usize) -> Vec<bool> {
        let mut on_line = vec![false; self.follows.len()];
        self.back_from(step).for_each(|step| on_line[step - 1] = true);
        on_line
    }

    /// Returns the steps that a return leaves behind: those that led to it and
    /// not to the state that it restores.
    pub fn left_behind(&self, step: usize) -> Vec<usize> {
        self.apart(step - 1, self.before(step))
    }

    /// Returns the steps that a return takes up again: those that led to the
    /// state that it restores and had been left behind.
    pub fn taken_up(&self, step: usize) -> Vec<usize> {
        self.apart(self.before(step), step - 1)
    }

    /// Returns the steps on the line to the first of two and not on that to the
    /// second, in order.
    fn apart(&self, one: usize, other: usize) -> Vec<usize> {
        let on_other = self.on_line(other);
        let mut apart: Vec<usize> = self.back_from(one).filter(|step| !on_other[step - 1]).collect();
        apart.reverse();
        apart
    }
}

#[cfg(test)]
mod tests {
    use super::*;

    fn lines(steps: &[Step]) -> Lines {
        let mut lines = Lines::default();
        steps.iter().for_each(|step| lines.follow(step, false));
        lines
    }

    fn line(lines: &Lines, step: usize) -> Vec<usize> {
        let mut line: Vec<usize> = lines.back_from(step).collect();
        line.reverse();
        line
    }

    const CLOCK: Step = Step { kind: 1, client: 0, object: 0, place: 0, clock: 0, value: 0 };

    #[test]
    fn without_a_return_the_line_is_all_steps() {
        let lines = lines(&[CLOCK, Step::save(0), CLOCK]);
        assert_eq!(line(&lines, 3), [1, 2, 3]);
        assert_eq!((lines.saved_in(0), lines.saved_in(1), lines.saved_in(9)), (Some(2), None, None));
        assert!(lines.left_behind(3).is_empty() && lines.taken_up(3).is_empty());
        assert_eq!(lines.back_from(0).count(), 0);
    }

    /// The second return to the same state leaves the first one behind, too.
    #[test]
    fn a_name_is_returned_to_twice() {
        let lines =
            lines(&[CLOCK, Step::save(0), CLOCK, Step::return_to(0), CLOCK, Step::return_to(0), CLOCK]);
        assert_eq!((lines.left_behind(4), lines.left_behind(6)), (vec![3], vec![4, 5]));
        assert_eq!(line(&lines, 7), [1, 2, 6, 7]);
        assert_eq!(lines.on_line(7), [true, true, false, false, false, true, true]);
    }

    /// A state that was saved on a branch left behind takes that branch up.
    #[test]
    fn a_branch_is_taken_up_again() {
        let there = [Step::save(0), CLOCK, Step::save(1), CLOCK];
        let lines = lines(&[&there[..], &[Step::return_to(0), CLOCK, Step::return_to(1), CLOCK]].concat());
        assert_eq!((lines.left_behind(5), lines.taken_up(5)), (vec![2, 3, 4], vec![]));
        assert_eq!((lines.left_behind(7), lines.taken_up(7)), (vec![5, 6], vec![2, 3]));
        assert_eq!(line(&lines, 8), [1, 2, 3, 7, 8]);
    }

    #[test]
    fn a_save_replaces_what_was_saved() {
        let mut lines = lines(&[Step::save(3), CLOCK, Step::save(3), CLOCK, Step::return_to(3)]);
        assert_eq!((lines.saved_in(3), lines.left_behind(5)), (Some(3), vec![4]));
        lines.follow(&Step::save(9), true);
        lines.follow(&Step::return_to(0), true);
        assert_eq!(line(&lines, 7), [1, 2, 3, 5, 6, 7]);
        assert_eq!((lines.saved_in(3), lines.saved_in(9), lines.saved_in(0)), (Some(3), None, None));
        assert_eq!((lines.saved_before(3, 3), lines.saved_before(1, 3)), (Some(1), None));
    }
}
