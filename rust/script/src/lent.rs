//! Lists lent to calls, filled with a mark so that a stray write shows.

/// A list, lent again and again.
pub(crate) struct Lent<T> {
    places: Vec<T>,
    mark: T,
}

impl<T: Copy + PartialEq> Lent<T> {
    pub(crate) fn new(mark: T) -> Self {
        Self {
            places: Vec::new(),
            mark,
        }
    }

    /// A list of some length, all marks.
    pub(crate) fn lend(&mut self, length: usize) -> &mut [T] {
        self.places.clear();
        self.places.resize(length, self.mark);
        &mut self.places
    }

    /// The answer to the call that has just returned: the refusal, or the words and the list up to
    /// the count; and `touched` if any other place was written, or the count exceeds the list.
    pub(crate) fn answer(
        &self,
        result: Result<usize, u32>,
        words: &str,
        show: impl Fn(&T) -> String,
    ) -> String {
        let count = result.unwrap_or(0);
        let written = count.min(self.places.len());
        let mut answer = match result {
            Ok(_) => words.to_string(),
            Err(refusal) => format!("refused {refusal}"),
        };
        for line in &self.places[..written] {
            answer.push(' ');
            answer.push_str(&show(line));
        }
        let strays = self.places[written..].iter().any(|line| *line != self.mark);
        match strays || written < count {
            true => touched(answer),
            false => answer,
        }
    }
}

/// An answer that ends with `touched`.
pub(crate) fn touched(answer: String) -> String {
    const WORD: &str = " touched";
    match answer.ends_with(WORD) {
        true => answer,
        false => answer + WORD,
    }
}

#[cfg(test)]
mod tests {
    use super::*;

    fn answer(length: usize, writes: &[usize], result: Result<usize, u32>) -> String {
        let mut lent = Lent::new(99);
        let list = lent.lend(length);
        for &place in writes {
            list[place] = 5;
        }
        lent.answer(result, "ok numbers", i32::to_string)
    }

    #[test]
    fn only_stray_writes_are_told() {
        assert_eq!(answer(3, &[0, 1], Ok(2)), "ok numbers 5 5");
        assert_eq!(answer(3, &[0, 1], Ok(1)), "ok numbers 5 touched");
        assert_eq!(answer(3, &[], Err(8)), "refused 8");
        assert_eq!(answer(3, &[2], Err(8)), "refused 8 touched");
        assert_eq!(answer(1, &[0], Ok(2)), "ok numbers 5 touched");
    }

    #[test]
    fn it_is_told_once() {
        let told = touched("ok".to_string());
        assert_eq!(told, "ok touched");
        assert_eq!(touched(told.clone()), told);
    }
}
