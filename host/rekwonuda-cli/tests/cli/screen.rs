//! What a terminal of some width shows after it was sent some bytes: as much of one as the command
//! line asks for.

/// A screen that never scrolls its lines away.
pub struct Screen {
    width: usize,
    lines: Vec<Vec<char>>,
    row: usize,
    column: usize,
}

impl Screen {
    pub fn new(width: usize) -> Screen {
        Screen {
            width,
            lines: vec![Vec::new()],
            row: 0,
            column: 0,
        }
    }

    pub fn show(&mut self, text: &str) {
        let mut rest = text.chars().peekable();
        while let Some(character) = rest.next() {
            match character {
                '\r' => self.column = 0,
                '\n' => self.go_down(1),
                '\x1b' => {
                    assert_eq!(rest.next(), Some('['), "a sequence that is not known here");
                    let mut argument = String::new();
                    while rest.peek().is_some_and(|next| !next.is_ascii_alphabetic()) {
                        argument.extend(rest.next());
                    }
                    self.control(rest.next().expect("a sequence ends"), &argument);
                }
                _ => self.print(character),
            }
        }
    }

    fn go_down(&mut self, rows: usize) {
        self.row += rows;
        let least = self.lines.len().max(self.row + 1);
        self.lines.resize(least, Vec::new());
    }

    /// A character behind the last column goes to the next line.
    fn print(&mut self, character: char) {
        if self.column == self.width {
            self.column = 0;
            self.go_down(1);
        }
        let line = &mut self.lines[self.row];
        line.resize(line.len().max(self.column + 1), ' ');
        line[self.column] = character;
        self.column += 1;
    }

    fn control(&mut self, letter: char, argument: &str) {
        let count = argument.parse().unwrap_or(1);
        match (letter, argument) {
            ('A', _) => self.row -= count,
            ('B', _) => self.go_down(count),
            ('K', "2") => self.lines[self.row].clear(),
            ('K', _) => self.lines[self.row].truncate(self.column),
            ('m', _) | ('h' | 'l', "?25") => {}
            _ => panic!("a sequence that is not known here: {argument}{letter}"),
        }
    }

    /// The lines that are not blank.
    pub fn lines(&self) -> Vec<String> {
        let lines = self
            .lines
            .iter()
            .map(|line| line.iter().collect::<String>());
        lines
            .map(|line| line.trim_end().to_string())
            .filter(|line| !line.is_empty())
            .collect()
    }
}

#[test]
fn a_screen_shows_what_a_terminal_would() {
    let mut screen = Screen::new(4);
    screen.show("abcdef\r\n");
    assert_eq!(screen.lines(), ["abcd", "ef"]);
    screen.show("1234\r\x1b[2Kx\r\n\x1b[1A\ry");
    assert_eq!(screen.lines(), ["abcd", "ef", "y"]);
}
