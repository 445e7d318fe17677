n = 135000
# A method that makes an instance.
class Point(object):
    def __init__(self, x, y):
        self.x = x
        self.y = y
    def add(self, other):
        return Point(self.x + other.x, self.y + other.y)
def work(n):
    p = Point(0, 0)
    q = Point(1, 2)
    for i in range(n):
        p = p.add(q)
    return p.x * p.y
print(work(n))
