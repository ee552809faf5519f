"""A loop that counts in a global variable."""

import sys

count = int(sys.argv[1])
n = 0
while n < count:
    n += 1
print(n)
