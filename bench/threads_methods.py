n = 20000
# Four threads, each on an instance of its own, by a method: each turn makes a record.
import threading
class Count(object):
    def __init__(self):
        self.total = 0
    def add(self, i):
        self.total += i
counts = [Count(), Count(), Count(), Count()]
def work(own, n):
    i = 0
    while i < n:
        own.add(i)
        i += 1
threads = []
for k in range(4):
    t = threading.Thread(target=work, args=(counts[k], n))
    threads.append(t)
    t.start()
for t in threads:
    t.join()
total = 0
for c in counts:
    total += c.total
print(total)
