#!/usr/bin/env python3
"""cut.py PATTERN: leaves out the functions whose names the pattern matches, of the text of an LLVM module that goes from standard input to standard output.

Such a function keeps its name and its type, and so its address, but its body ends the call by `page_part_is_left_out` of heap.c. What only these
functions need goes with them when the module is linked.
"""
import re
import sys

LEFT_OUT = "declare void @page_part_is_left_out() cold noreturn nounwind"
BODY = "  call void @page_part_is_left_out()\n  unreachable\n}\n"
NAME = re.compile(r'define [^@]*@"?([^"(]*)')
# What is said of a function between its parameters and its body. Of the new body that might not hold.
SAID = re.compile(r"\)[^()]*\{$")


def main(pattern):
    is_left_out = re.compile(pattern).match
    is_inside = False
    for line in sys.stdin:
        name = NAME.match(line)
        if name and is_left_out(name[1]):
            is_inside = True
            sys.stdout.write(SAID.sub(") noinline nounwind {", line.rstrip()) + "\n" + BODY)
        elif not is_inside:
            sys.stdout.write(line)
        elif line == "}\n":
            is_inside = False
    print(LEFT_OUT)


if __name__ == "__main__":
    if len(sys.argv) != 2:
        sys.exit("usage: cut.py PATTERN < IN > OUT")
    main(sys.argv[1])
