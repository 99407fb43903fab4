import sys
import listset

try:
    print(listset.judge_text(sys.stdin.buffer.read()), end="")
except listset.Wrong as wrong:
    print(wrong)
    sys.exit(wrong.status)
