"""What tests/rule_cases is made of: worked cases as lemmas over the rules.

    terms    terms of bytes: rows of hex, each with a comment beside it, and how they are put together
    lists    package lists, an opcode in each row with its place and its name
    images   images, and the stores that they spell
    said     the lines of a script, each with its answers
    meaning  what a term means, so that each is held against the bytes for which it stands
    cases    a case: its definition and its lemma

A term is the lines of its text. The words in it are those of crates/browser_rules/proofs/CaseWords.antt.
"""
