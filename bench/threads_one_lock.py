n = 40000
# Four threads that add to one number under one lock.
import threading
lock = threading.Lock()
total = [0]
def work(n):
    i = 0
    while i < n:
        lock.acquire()
        total[0] += 1
        lock.release()
        i += 1
threads = []
for k in range(4):
    t = threading.Thread(target=work, args=(n,))
    threads.append(t)
    t.start()
for t in threads:
    t.join()
print(total)
