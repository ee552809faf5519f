"""A client calls a server, whose service adds to a shared total: two threads, and a queue each way."""

import queue
import sys
import threading

calls = queue.SimpleQueue()
replies = queue.SimpleQueue()
total = 0


def serve():
    global total
    while (number := calls.get()) is not None:
        total += number
        replies.put(total)


server = threading.Thread(target=serve)
server.start()
for i in range(1, int(sys.argv[1]) + 1):
    calls.put(i % 10)
    last = replies.get()
calls.put(None)
server.join()
print(last)
