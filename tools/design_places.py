#!/usr/bin/env python3
"""Counts the places of docs/DESIGN-PASS.md: forms of the older language in crates/*/src.

design_places.py [--list] [TOP]    TOP is a checkout, this one if none is named. A line for each kind of place: its point, how many, what it is;
                                   with --list each place as FILE:LINE and the line's text.
"""
import glob
import os
import re
import sys

# A kind of place: the point, what it is, and a pattern that a line (or, with DOTALL, a stretch of lines) of src matches.
KINDS = [
    (1, 'own enums of the shape of Option or Result: two variants, one or both with a value', r'enum \w+ \{\n(?:\s*//[^\n]*\n)*\s*\w+\([^)\n]*\),\n(?:\s*//[^\n]*\n)*\s*\w+(?:\([^)\n]*\))?,\n\}|enum \w+ \{\n(?:\s*//[^\n]*\n)*\s*\w+,\n(?:\s*//[^\n]*\n)*\s*\w+\([^)\n]*\),\n\}'),
    (1, 'a ground as a variant of an answer', r'^\s*Refused\(Ground\),'),
    (1, 'a refusal handed on by hand (let-else, if let, match)', r'let Check::Passed =|if let Check::Refused\(|Check::Refused\(ground\) =>|Effect::Fails\(ground\) =>|let Answer::Count\(\w+\) = |if let Err\(ground\) =|Err\(ground\) => (?:return )?(?:Err|Answer)'),
    (1, 'a flag with a value beside it in a struct', r'^\s*pub (?:accepted|valued|taken): (?:bool|\[bool)'),
    (1, 'a number that stands for none', r'const NO_\w+: |fn (?:row_size|found_at|ground_in)\('),
    (1, 'kinds and refusals as numbers', r'kind_of\(\w+(?:\[\w+\])?\) [=!<]|\bkind < |<= kind\b|\bkind [=!]= |match kind\b|number == DESK|fn number\(|\bnumber\(ground\)|render_refusal\(\d'),
    (1, 'types that can be copied and neither compared nor printed', r'^#\[derive\(Clone, Copy\)\]|^(?:pub )?struct Counter'),
    (2, 'functions of two families that differ in a rule, a size or a type', r'fn (?:(?:four|block|many|few|sixteen)_(?:follows?|climbs?)|(?:put_)?(?:flags|numbers|ends)(?:_of)?|(?:move|write|bring)_(?:few|many)|put_u\d+|u\d+_at|wide|apply_to_reads|words_after|is_zero|are_unused|joined|lesser|lower|are_few)\('),
    (2, 'a call with its count, once for each call', r'fn (?:serve_(?:core|clear|commit|load)|(?:call|clear|commit|load)_on)\('),
    (3, 'loops that count by hand', r'^\s*while '),
    (4, 'bytes of a number one by one', r'fn (?:put_u\d+|u\d+_at)\('),
    (4, 'conversions by a function', r'fn (?:number|number_of|code_of|value_of|since_word|since_of|caller_of|status_of|wide)\('),
    (4, 'least, greatest and stops at the end of a range by hand', r'fn (?:lesser|lower|steps_between|count_after|reaches|past)\('),
    (4, 'one comparison in a function of its own', r'fn (?:is_long|is_full|exceeds|are_few|size_if_room|numbers_fit|lengths_fit|depth_fits)\('),
    (4, 'texts put together by hand', r'fn (?:put_text|put_decimal|put_line|put_header|render|render_refusal|show_\w+)\('),
    (5, 'functions that take table, journal and head', r'fn \w+(?:<[^>]*>)?\([^)]*\btable: &[^)]*\bjournal: &[^)]*\bhead: [^)]*\)'),
    (5, 'functions that take journal, ends, from and to', r'fn \w+(?:<[^>]*>)?\([^)]*\bjournal: &[^)]*\bends: &[^)]*\bfrom: usize[^)]*\bto: usize[^)]*\)'),
    (5, 'a fact that several functions ask: held state, rising steps, room for a map', r'requires \{[^}]*\b(?:HeldState|MapRoom|Rising|Noted|Marked)\b'),
    (6, 'a position beside a buffer', r'\b(?:at|from): usize\b'),
    (6, 'parallel arrays', r'^\s*pub (?:taken|issued): \[|flags: &(?:mut )?\[bool\]'),
    (6, 'a sorted list searched by hand', r'fn position\('),
    (7, 'a switch on a kind of call or format', r'^\s*match (?:call|format|query|step|reset)\b'),
]


def main(arguments):
    listed = '--list' in arguments
    tops = [a for a in arguments if not a.startswith('--')]
    top = tops[0] if tops else os.path.join(os.path.dirname(os.path.abspath(__file__)), '..')
    files = [(os.path.relpath(f, top), open(f).read()) for f in sorted(glob.glob(os.path.join(top, 'crates/*/src/*.rt')))]
    for point, what, pattern in KINDS:
        places = [(f, text.count('\n', 0, m.start()) + 1, text[m.start():].strip().split('\n')[0])
                  for f, text in files for m in re.finditer(pattern, text, re.MULTILINE)]
        print('%d  %4d  %s' % (point, len(places), what))
        if listed:
            for f, line, text in places:
                print('         %s:%d  %s' % (f, line, text[:110]))


if __name__ == '__main__':
    main(sys.argv[1:])
