n = 55000
# Four threads, each on a list of its own.
import threading
sums = [0, 0, 0, 0]
def work(k, n):
    own = [0, 0, 0, 0, 0, 0, 0, 0]
    i = 0
    while i < n:
        own[i % 8] += i
        i += 1
    sums[k] = sum(own) + k
threads = []
for k in range(4):
    t = threading.Thread(target=work, args=(k, n))
    threads.append(t)
    t.start()
for t in threads:
    t.join()
print(sums)
