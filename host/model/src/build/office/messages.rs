//! The messages of the sample: subject, sender and text.

pub type Message = (&'static str, &'static str, &'static str);

pub const INBOX_MESSAGES: [Message; 11] = [
    (
        "Minutes of Monday",
        "A. Lindqvist",
        "The minutes are below. Please send changes by Thursday.",
    ),
    (
        "Room for the review",
        "B. Okafor",
        "The small room is taken. I asked for the one on the third floor.",
    ),
    (
        "Keys",
        "C. Marchetti",
        "The spare keys lie at the front desk.",
    ),
    (
        "Order 1143",
        "D. Sato",
        "The paper has come, the pens have not.",
    ),
    ("Re: Order 1143", "A. Lindqvist", "The shop says Friday."),
    ("Lunch", "E. Novak", "Twelve, at the corner?"),
    ("Re: Lunch", "B. Okafor", "Half past, please."),
    (
        "Printer",
        "C. Marchetti",
        "It jams on thick paper. Use the tray at the side.",
    ),
    (
        "Draft of the letter",
        "D. Sato",
        "The second part still needs a date.",
    ),
    (
        "Leave in August",
        "E. Novak",
        "I am away from the third to the seventeenth.",
    ),
    ("Re: Leave in August", "A. Lindqvist", "Noted."),
];

pub const SENT_MESSAGES: [Message; 3] = [
    (
        "Re: Room for the review",
        "F. Haddad",
        "The third floor is fine. I bring the drawings.",
    ),
    (
        "Re: Order 1143",
        "F. Haddad",
        "Please tell me when the pens have come.",
    ),
    (
        "Re: Draft of the letter",
        "F. Haddad",
        "The date is the ninth.",
    ),
];

pub const OLD_MESSAGES: [Message; 2] = [
    (
        "Keys of the old office",
        "C. Marchetti",
        "Both sets went back to the owner.",
    ),
    (
        "",
        "E. Novak",
        "A message without a subject, kept as it came.",
    ),
];
