#!/usr/bin/env python3
# A token of each kind, with blanks, line ends and comments between them, and two bytes that are one character.
import sys
sys.stdout.buffer.write(b'{// \xc3\xa9 }\n List<Int>=e;\r\n\t/*\n*/007 "\\n\xc3\xa9"_a try trys this.')
