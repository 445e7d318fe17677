n = 50000
# Four threads, each on numbers of its own.
import threading
sums = [0, 0, 0, 0]
def work(k, n):
    a = k
    i = 0
    while i < n:
        a = (a * 7 + i) % 1000003
        i += 1
    sums[k] = a
threads = []
for k in range(4):
    t = threading.Thread(target=work, args=(k, n))
    threads.append(t)
    t.start()
for t in threads:
    t.join()
print(sums)
