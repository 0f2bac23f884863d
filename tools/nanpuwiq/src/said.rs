//! Every sentence of a play, once, with holes in braces. `play` fills the holes here; the page is given the same sentences, and its script fills them by the
//! same names. So the two cannot say different things.

/// A sentence with holes, and the name that the page's script calls it by.
pub struct Form {
    pub name: &'static str,
    pub text: &'static str,
}

impl Form {
    /// The sentence with its holes filled. A hole that nothing is given for stays as it is.
    pub fn with(&self, holes: &[(&str, &str)]) -> String {
        let mut filled = String::new();
        let mut rest = self.text;
        while let Some((before, after)) = rest.split_once('{') {
            let Some((hole, behind)) = after.split_once('}') else { break };
            filled.push_str(before);
            match holes.iter().find(|(name, _)| *name == hole) {
                Some((_, value)) => filled.push_str(value),
                None => filled.extend(["{", hole, "}"]),
            }
            rest = behind;
        }
        filled + rest
    }
}

macro_rules! forms {
    ($($constant:ident $text:literal)*) => {
        $(pub const $constant: Form = Form { name: stringify!($constant), text: $text };)*
        /// All of them, for the page.
        pub const ALL: &[&Form] = &[$(&$constant),*];
    };
}

forms! {
    // a position
    HERE "Old drive: {old}. New drive: {new}."
    PANEL_BEGINS "The panel begins in {next}."
    PANEL_GOES "The panel goes to {next}."
    PANEL_MAY_BEGIN "The panel may begin in: {moves}."
    PANEL_MAY_GO "The panel may go to: {moves}."
    DRIVE_MAY_BEGIN "The new drive may begin in: {moves}."
    DRIVE_MAY_ANSWER "The new drive may answer with: {moves}."
    // who moves first is stuck first: the panel before the new drive
    OLD_STUCK "The old drive has no move any more: it was stuck first, the play stops here, and you have lost."
    NEW_STUCK "The new drive has no move any more: it was stuck first, it cannot answer, and you have lost."

    // what the table aims at
    CONTROLLER_AIMS "The controller aims at {set}, for requirement {number}."
    CONTROLLER_GOES_OVER "The controller is on its way to where it can stay {home}."
    CONTROLLER_REPLIES "The controller answers turn by turn: the old drive does not come back here."
    CONTROLLER_IDLES "The controller goes on: where it stays it has nothing to aim at."
    PANEL_AIMS "The panel aims at {set}, for requirement {number}."
    PANEL_LEAVES "The panel is on its way out of {around}."
    PANEL_CORNERS "The panel aims at a step that no answer saves."
    PANEL_IDLES "The panel goes on: where it stays it has nothing to aim at."

    // a round
    ROUND_CLOSED "This has been seen before: a round of {turns} is closed."
    ONE_TURN "1 turn"
    MORE_TURNS "{count} turns"
    WALKED "old {old}, new {new}"
    STEP "old {old}, new {new}, counter {counter}"
    JUDGED "Requirement {number} is {judgement}: {words}."
    NOT_DUE "the old drive is never in {set}, so nothing is due"
    SERVED "all that it asks of the new drive is there"
    MISSED "it is due, and the new drive is never in {set}"
    MET "met"
    BROKEN "BROKEN"
    ROUND_EMPTY "Nothing is required, and the round meets it: the new drive keeps up for ever."
    ROUND_MET "The round meets every requirement: played for ever it is what was asked for."
    ROUND_BROKEN "Played for ever this round is a failure of the new drive."
    LOST_BY_BREAKING "You have lost: the new drive breaks requirement {number}."
    LOST_BY_MEETING "You have lost: the new drive fails in nothing."
    WON_BY_BREAKING "You have won: the new drive breaks requirement {number}."
    WON_BY_MEETING "You have won: the new drive fails in nothing."
    FOR_EVER "The table goes by what stands here alone, so it will do the same again: if you pick the same, this goes on for ever."

    // why
    WHY "Why: {ground}."
    NOTHING_PLAYED "Nothing is played yet. The positions that you can begin with:"
    NOTHING_TO_BEGIN "Nothing is played yet, and there is nothing to pick."
    BEGINNING "old {old}, new {new}, {ground}."

    // a hint
    ALL_WON "After each of your picks the position is won for the new drive:"
    ALL_LOST "After each of your picks the position is lost for the new drive:"
    LEFT_OPEN "What each of your picks leaves open:"
    NOTHING_TO_PICK "There is nothing to pick."
    HINT "{pick}: {consequence}."
    NEVER_DUE "requirement {number} can never be due, for {set} cannot recur"
    GIVES_UP "gives up requirement {number}, for {set} cannot recur"
    GIVES_UP_NOTHING "gives up no requirement by itself"

    // for the page alone
    SAVED "Saved, for nanpuwiq compare: "

    // anything else
    NOTHING_TO_UNDO "There is nothing to take back."
}

/// Why a position is won or lost: the library's grounds, in their order. Where a ground is told in several ways they stand one after the other.
pub const GROUNDS: [&str; 11] = [
    "won: the old drive has no move from {old}, and who cannot move loses",
    "won: the old drive does not come back to {old}, and whatever it does next, the new drive has an answer that is won",
    "won: the new drive can stay {home}, and there it can meet all that is due while the old drive stays {old_staying}",
    "won: the new drive can stay {home}, and there it can meet all that is due while the old drive stays {old_staying}; \
     and wherever the old drive goes from there, the position is won with each of these",
    "won: the new drive can go on and then stay {home}, and there it can meet all that is due while the old drive stays {old_staying}",
    "won: the new drive can go on and then stay {home}, and there it can meet all that is due while the old drive stays {old_staying}; \
     and wherever the old drive goes from there, the position is won with each of these",
    "lost: the new drive has no move from {new}, and who cannot move loses",
    "lost: the panel can go to {next}, and whatever the new drive answers from {new} is lost",
    "lost: the panel can leave {old_around} for {next}, and there new {new} is lost",
    "lost: while the old drive stays {old_staying}, requirement {number} can be due, and while the new drive stays {new_staying} it is never in {set}",
    "lost: the new drive can neither stay in {new} nor come back to it, and wherever it goes is lost",
];
