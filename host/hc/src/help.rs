//! The texts of help and usage.

use crate::args::Verb;

pub const USAGE: &str = "\
usage:
  hc build BOOK [-o NETWORK]   builds the network of a tree book
  hc check BOOK                says whether a book is accepted, or what is wrong
  hc plain BOOK [-o FILE]      writes the plain form of a book
  hc same BOOK BOOK            says whether two books are the same, or where not
  hc transcribe [--questions] BOOK PHONE..
                               prints the models that the trees give to phones
  hc questions BOOK            prints how many questions each tree asks
  hc arcs NETWORK STATE        prints the arcs that leave a state of a network
  hc words WORDBOOK            says whether a word book is right, or what is not
  hc join NETWORK WORDBOOK [-o FILE]
                               joins a network with the words of a word book
  hc help [COMMAND]            prints help, or more about a command
  hc --version                 prints the version";

const GENERAL: &str = "

A BOOK, NETWORK or WORDBOOK named - is standard input. A fault is shown on
standard error: its number and word, what it means, and the line of the text.
The guides docs/tree-books.md and docs/word-books.md tell how to write books and
how to mend each fault.
The exit status is 0, or 1 where something is wrong; for hc same it is 0, or 1
where the books are not the same, or 2 where something is wrong.

examples:
  hc build welsh.book -o welsh.network
  hc build - < welsh.book > welsh.network
  hc check welsh.book
  hc plain welsh.book -o welsh.plain
  hc same welsh.book cardiff.book
  hc transcribe welsh.book 1 2 2 1
  hc questions welsh.book
  hc arcs welsh.network 0
  hc words orders.words
  hc join welsh.network orders.words -o welsh.joined
";

const BUILD: &str = "

Reads the tree book, builds its network and writes the network's text to
NETWORK, or to standard output where NETWORK is - or not given. BOOK may be -
for standard input.

NETWORK is written under another name in its folder and renamed when it is
whole: a book that is refused, or a build that is interrupted, leaves NETWORK
as it was.

A book may have up to 64 phones, 255 classes and 4096 nodes, a network up to
65535 metastates and 999999 arcs.

examples:
  hc build welsh.book -o welsh.network
  hc build - < welsh.book > welsh.network
";

const CHECK: &str = "

Reads the tree book. Says that it is accepted, with its half-width, states,
phones, classes and nodes, and its boundary phones if it has B lines; or what is
wrong and where. Nothing is built. BOOK may be - for standard input.

examples:
  hc check welsh.book
  hc check - < welsh.book
";

const PLAIN: &str = "

Reads the tree book and writes it in its plain form to FILE, or to standard
output where FILE is - or not given. BOOK may be - for standard input.

The plain form is one spelling for all books that have the same trees: the trees
stand by phone and state, the nodes of each are numbered from its root down, yes
before no; classes with the same members are one, those that no question asks
about are left out, and they are numbered as the questions meet them. B lines
stay as they are, and R lines that are left out stay left out. It is a book
itself, and gives every row of phones the models that it had.

FILE is replaced whole or not at all, and may not be BOOK itself.

examples:
  hc plain welsh.book -o welsh.plain
  hc plain - < welsh.book | cmp - cardiff.plain
";

const SAME: &str = "

Says whether two tree books are the same: the same half-width, states, phones
and B lines and, for each phone and state, the same tree or none, however its
nodes and the classes are numbered. Where they are not, says what differs first:
half-width, states or phones, a B line, or a tree, and what differs there on the
way from its root down, yes before no. One BOOK may be - for standard input.

The exit status is 0 if they are the same, 1 if they are not, and 2 if there is
no answer: a book is refused or cannot be read, or the command is wrong.

examples:
  hc same welsh.book cardiff.book
  hc same welsh.book - < letter.book && echo nothing new
";

const TRANSCRIBE: &str = "

Prints in one line the models that the trees of the book give to the phones,
for each phone as many as it has states. The phones must begin and end with
silence, phone 1; what lies beyond them counts as silence too. BOOK may be -
for standard input.

With --questions a second line says how many questions were put for them: those
that the walks from the roots to the leaves meet, one walk for each phone and
state.

examples:
  hc transcribe welsh.book 1 2 2 1
  hc transcribe --questions welsh.book 1 2 2 1
";

const QUESTIONS: &str = "

Prints a line for each phone and state of the book: how many leaves its tree
has, how many questions the deepest walk from the root to a leaf meets, and how
many a walk meets on average, each leaf counted once. A boundary phone has the
trees of its plain phone, which is named. The last line is about all trees that
are used. BOOK may be - for standard input.

examples:
  hc questions welsh.book
  hc questions welsh.book | sort -k 4 -n -r | head
";

const ARCS: &str = "

Prints the arcs that leave the state, as the A lines that they are in NETWORK:
the state they leave, the state they enter, model, phone. For a state without
arcs nothing is printed. State 0 is INITIAL, state 1 is FINAL. NETWORK may be -
for standard input.

examples:
  hc arcs welsh.network 0
  hc build welsh.book | hc arcs - 2
";

const WORDS: &str = "

Reads the word book. Says that it is accepted, with how many words and lines it
has, its longest word, its highest phone and, if there are such, how many words
have just the phones of an earlier one; or what is wrong and where. WORDBOOK may
be - for standard input.

examples:
  hc words orders.words
  hc words - < orders.words
";

const JOIN: &str = "

Reads the network and the word book, joins them, and writes the joined network
to FILE, or to standard output where FILE is - or not given. One of NETWORK and
WORDBOOK may be - for standard input.

The joined network leads from models to words. It has a line for each arc: the
state it leaves, the state it enters, its model and its word, 0 being none, with
tabs between them. A word stands at the arc of its first phone. State 0 is where
every way begins. The last line is 1, the state where it ends. This form is hc's
own; no command reads it.

A word book may have up to 9999 words of up to 64 phones, a joined network up to
65535 states and 999999 arcs. FILE is replaced whole or not at all, and may not
be NETWORK or WORDBOOK itself.

examples:
  hc join welsh.network orders.words -o welsh.joined
  hc build welsh.book | hc join - orders.words
";

/// How a command is called.
pub fn usage(verb: Verb) -> &'static str {
    match verb {
        Verb::Build => "hc build BOOK [-o NETWORK]",
        Verb::Check => "hc check BOOK",
        Verb::Plain => "hc plain BOOK [-o FILE]",
        Verb::Same => "hc same BOOK BOOK",
        Verb::Transcribe => "hc transcribe [--questions] BOOK PHONE..",
        Verb::Questions => "hc questions BOOK",
        Verb::Arcs => "hc arcs NETWORK STATE",
        Verb::Words => "hc words WORDBOOK",
        Verb::Join => "hc join NETWORK WORDBOOK [-o FILE]",
    }
}

/// What a command asks for.
pub fn wanted(verb: Verb) -> &'static str {
    match verb {
        Verb::Build | Verb::Check | Verb::Plain | Verb::Questions => "one BOOK is needed",
        Verb::Same => "two BOOKs are needed",
        Verb::Transcribe => "a BOOK and one PHONE or more are needed",
        Verb::Arcs => "one NETWORK and one STATE are needed",
        Verb::Words => "one WORDBOOK is needed",
        Verb::Join => "one NETWORK and one WORDBOOK are needed",
    }
}

/// What a command that writes a file calls it.
pub fn output(verb: Verb) -> Option<&'static str> {
    match verb {
        Verb::Build => Some("NETWORK"),
        Verb::Plain | Verb::Join => Some("FILE"),
        _ => None,
    }
}

/// Help about a command, or about all.
pub fn text(verb: Option<Verb>) -> String {
    let Some(verb) = verb else {
        return format!(
            "hc builds the speech recognition networks of tree books, by a proved library.\n\n{USAGE}{GENERAL}"
        );
    };
    let more = match verb {
        Verb::Build => BUILD,
        Verb::Check => CHECK,
        Verb::Plain => PLAIN,
        Verb::Same => SAME,
        Verb::Transcribe => TRANSCRIBE,
        Verb::Questions => QUESTIONS,
        Verb::Arcs => ARCS,
        Verb::Words => WORDS,
        Verb::Join => JOIN,
    };
    format!("usage: {}{more}", usage(verb))
}
