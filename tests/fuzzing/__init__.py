"""What tests/fuzz is made of.

    cases          a case: list, image, script and arguments; how one is read from a folder and kept
    structure      package lists as packages, and forms packages as opcodes
    facts          what a list has: forms, stores, questions, options, rules, languages
    values         values near the bounds of a question or of a width
    expressions    random expressions over questions and rules
    statements     random questions, options, defaults, guards and rules
    texts          random string packages, and mutations of them
    grammar        whole lists that are accepted
    images         images for a list, and mutations of them
    scripts        lines for a list, and mutations of scripts
    configuration_texts  requests and responses, right ones and broken ones
    bytewise       mutations of bytes, and of the packages of a list
    opcodewise, fields, additions  mutations of opcodes
    targets, singles, sessions     cases that aim at a limit, at one opcode, or at what is kept between commands
    mutations      the table of all mutations, and how a case is made by them
    told           what answers tell: causes, denials, and what is new in them
    comparing      the program and the reading over a case
    smaller        a case that differs, made smaller
    working        the loop of a worker
    tallies        what a run met, and the tables at its end
    sharp          wrong readings, and in how many cases they are seen
    executed       which lines of the reading a case executes
    wrong_readings the table of these
"""
