//! An answer in words.

use crate::coordinator::{Answer, Refusal};
use crate::why::name;

/// `why` is the sentence for a refusal.
pub fn words(answer: Answer, why: impl FnOnce(Refusal) -> String) -> String {
    match answer {
        Answer::Assignment {
            epoch, interval, ..
        } => format!("epoch {epoch}, next heartbeat in {interval} ms"),
        Answer::Left => "epoch -1, the member has left".into(),
        Answer::Swept(0) => "nobody removed".into(),
        Answer::Swept(1) => "1 member removed".into(),
        Answer::Swept(removed) => format!("{removed} members removed"),
        Answer::Done => "done".into(),
        Answer::Refused(refusal) => {
            let (number, name) = (refusal.number(), name(refusal));
            format!("refused {number} {name}: {}", why(refusal))
        }
    }
}

#[cfg(test)]
mod tests {
    use super::*;

    fn said(answer: Answer) -> String {
        words(answer, |_| "so it is".into())
    }

    #[test]
    fn each_answer_in_words() {
        let assignment = Answer::Assignment {
            epoch: 2,
            interval: 5000,
            count: 1,
        };
        assert_eq!(said(assignment), "epoch 2, next heartbeat in 5000 ms");
        assert_eq!(said(Answer::Left), "epoch -1, the member has left");
        assert_eq!(said(Answer::Swept(0)), "nobody removed");
        assert_eq!(said(Answer::Swept(1)), "1 member removed");
        assert_eq!(said(Answer::Swept(32)), "32 members removed");
        assert_eq!(said(Answer::Done), "done");
        let refused = Answer::Refused(Refusal::Room);
        assert_eq!(said(refused), "refused 1003 ROOM: so it is");
    }
}
