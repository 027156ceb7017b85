"""Answers each state of a sheet as the program `sheet` does: python3 example.py PATH-OF-libwoolyard.so [SHEET]"""
import sys
from pathlib import Path
import woolyard

library = woolyard.Woolyard(sys.argv[1])
sheet = Path(sys.argv[2]).read_bytes() if sys.argv[2:] else b"1\n300000 1000000\n2\n120000 500000\n55999 500000\n0\n"
for state in library.states(sheet):
    reply = woolyard.reply(library.state, *state)
    print(f"NO {reply.number}" if isinstance(reply, woolyard.Refused) else reply)
