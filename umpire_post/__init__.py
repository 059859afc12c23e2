"""A club's game by post: from the umpire's inbox to the outbox.

The package keeps books around the two proved programs, and rules nothing. What counts as a good
sheet, what is wrong with it and what a round brings is what `umpire` and `umpire-desk` say.

Modules, in reading order:

    words       how numbers, names and texts of strangers are put in words
    deadlines   when sheets are due, and the time zone of a club
    club        who plays, from which addresses, and how mail is sent: `club.toml`
    programs    the two programs, and what is read from their answers
    disk        steps that are done whole or not at all, and the lock of a folder
    sources     messages from a file, an mbox, a Maildir or standard input
    folder      a game's folder: messages, sheets, rounds, letters
    games       a game alone, or a club of several games in one folder
    heads       the heads of a message: who sent it, and what it answers
    parts       the texts in the parts of a message, within bounds
    html        the lines of a text in HTML
    prose       what stands around orders: attributions, greetings, closings
    text        the lines of a text: joined, without quotations and signatures, cleaned of mail
    sheets      the sheets among the lines
    limited     a function in a process of its own, with a limit of time and memory
    message     a message taken apart, by all of these
    reading     who may send what
    routing     which game of a club a message belongs to
    letters     how a letter is made, and the letters of a game
    answers     the answer to a message
    entries     a message that was read, and what is written of it
    strangers   which messages are answered, since a sender may be forged
    evening     what a command works with
    beginning   `new` and `club`
    intake      `in`
    rounds      `round` and `undo`
    overview    `status` and `due`
    delivery    `send`: letters handed to sendmail or to a host
    commands    the command line
"""
