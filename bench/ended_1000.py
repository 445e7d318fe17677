n = 250000
# The numbers of arithmetic.py, when 1000 threads have ended.
import threading
def quiet():
    pass
for k in range(1000):
    t = threading.Thread(target=quiet)
    t.start()
    t.join()
def work(n):
    x = 1
    i = 0
    while i < n:
        x = (x * 1103515245 + 12345) % 2147483648
        i += 1
    return x
print(work(n))
