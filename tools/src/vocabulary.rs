//! The user's words: client, volume and object, or the paper's words for them.

/// The field's word, and the paper's for the same thing.
const TABLE: [(&str, &str); 6] = [
    ("client", "dash"),
    ("clients", "dashes"),
    ("volume", "region"),
    ("volumes", "regions"),
    ("object", "notice"),
    ("objects", "notices"),
];

/// Whose words are used. A run file has none of its own, so the field's are.
#[derive(Clone, Copy, Debug, Default, PartialEq, Eq)]
pub enum Vocabulary {
    #[default]
    Field,
    Paper,
}

impl Vocabulary {
    /// Returns whose word this is, if it is in the table.
    pub fn of(word: &str) -> Option<Vocabulary> {
        TABLE.iter().find_map(|(field, paper)| match word {
            _ if word == *field => Some(Vocabulary::Field),
            _ if word == *paper => Some(Vocabulary::Paper),
            _ => None,
        })
    }

    /// Returns our text, which is in the field's words, in these words. Never
    /// pass what the user wrote: it stays as it is.
    pub fn said(self, ours: &str) -> String {
        if self == Vocabulary::Field {
            return ours.into();
        }
        let mut said = String::with_capacity(ours.len());
        for word in ours.split_inclusive(|c: char| !c.is_ascii_alphabetic()) {
            let letters = word.trim_end_matches(|c: char| !c.is_ascii_alphabetic());
            match TABLE.iter().find(|(field, _)| *field == letters) {
                None => said.push_str(word),
                Some((_, paper)) => {
                    drop_n(&mut said);
                    said.push_str(paper);
                    said.push_str(&word[letters.len()..]);
                }
            }
        }
        said
    }
}

/// Turns `an` into `a`, for an object that becomes a notice.
fn drop_n(said: &mut String) {
    if said.ends_with(" an ") || said == "an " {
        said.truncate(said.len() - 2);
        said.push(' ');
    }
}

/// Returns the field's word for this one.
pub fn plain(word: &str) -> &str {
    TABLE.iter().find(|(_, paper)| *paper == word).map_or(word, |(field, _)| field)
}

#[cfg(test)]
mod tests {
    use super::*;

    #[test]
    fn whole_words_alone_are_said_otherwise() {
        let ours = "client 0's leases of `volumes`, an object or objects; subclient, clients: \"object\"";
        let paper = "dash 0's leases of `regions`, a notice or notices; subclient, dashes: \"notice\"";
        assert_eq!(Vocabulary::Field.said(ours), ours);
        assert_eq!(Vocabulary::Paper.said(ours), paper);
        assert_eq!(Vocabulary::Paper.said(paper), paper);
        assert_eq!(Vocabulary::Paper.said("an object than objects"), "a notice than notices");
    }

    #[test]
    fn each_word_is_somebodys() {
        assert_eq!(Vocabulary::of("clients"), Some(Vocabulary::Field));
        assert_eq!(Vocabulary::of("regions"), Some(Vocabulary::Paper));
        assert_eq!(Vocabulary::of("lease"), None);
        assert_eq!((plain("dash"), plain("object"), plain("lease")), ("client", "object", "lease"));
    }
}
