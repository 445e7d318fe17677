n = 25000
# Four threads, each on an instance and a list of its own; no turn makes a record.
import threading
class Count(object):
    def __init__(self):
        self.total = 0
        self.last = 0
counts = [Count(), Count(), Count(), Count()]
def work(own, n):
    seen = [0, 0, 0, 0]
    i = 0
    while i < n:
        own.total += i
        own.last = seen[i % 4]
        seen[i % 4] = i
        i += 1
threads = []
for k in range(4):
    t = threading.Thread(target=work, args=(counts[k], n))
    threads.append(t)
    t.start()
for t in threads:
    t.join()
total = 0
for c in counts:
    total += c.total + c.last
print(total)
