"""Six Cilk programs with their elisions in C and in Python. The C one is made from the source; the Python ones are written out."""
import re

FIB = ("fib(N) by spawns", """
cilk int fib(int n) {
  int x, y;
  if (n < 2) return n;
  x = spawn fib(n - 1);
  y = spawn fib(n - 2);
  sync;
  return x + y;
}
cilk int main() {
  int r;
  r = spawn fib(N);
  sync;
  print(r);
  return 0;
}
""", """
def fib(n):
    if n < 2:
        return n
    return fib(n - 1) + fib(n - 2)
print(fib(N))
""")

SUM = ("sum by halves of N words", """
int a[N];
cilk int sum(int low, int high) {
  int middle, left, right;
  if (high - low < 16) {
    while (low < high) { left = left + a[low]; low = low + 1; }
    return left;
  }
  middle = (low + high) / 2;
  left = spawn sum(low, middle);
  right = spawn sum(middle, high);
  sync;
  return left + right;
}
cilk int main() {
  int i, r, turn;
  for (i = 0; i < N; i++) a[i] = i % 100;
  for (turn = 0; turn < 6; turn++) { r = spawn sum(0, N); sync; }
  print(r);
  return 0;
}
""", """
a = [0] * N
def sum_of(low, high):
    if high - low < 16:
        total = 0
        while low < high:
            total = total + a[low]
            low = low + 1
        return total
    middle = (low + high) // 2
    return sum_of(low, middle) + sum_of(middle, high)
for i in range(N):
    a[i] = i % 100
for turn in range(6):
    r = sum_of(0, N)
print(r)
""")

SIEVE = ("sieve of N numbers", """
int a[N];
int main() {
  int i, j, count;
  for (i = 2; i < N; i++) {
    if (a[i] == 0) {
      count++;
      for (j = i * i; j < N; j += i) a[j] = 1;
    }
  }
  print(count);
  return 0;
}
""", """
a = [0] * N
count = 0
i = 2
while i < N:
    if a[i] == 0:
        count = count + 1
        j = i * i
        while j < N:
            a[j] = 1
            j = j + i
    i = i + 1
print(count)
""")

MATRIX = ("product of N by N", """
int a[N * N], b[N * N], c[N * N];
cilk void row(int i) {
  int j, k, sum;
  for (j = 0; j < N; j++) {
    sum = 0;
    for (k = 0; k < N; k++) sum += a[i * N + k] * b[k * N + j];
    c[i * N + j] = sum;
  }
}
cilk int main() {
  int i, trace;
  for (i = 0; i < N * N; i++) { a[i] = i % 7; b[i] = i % 11; }
  for (i = 0; i < N; i++) spawn row(i);
  sync;
  for (i = 0; i < N; i++) trace += c[i * N + i];
  print(trace);
  return 0;
}
""", """
a = [0] * (N * N)
b = [0] * (N * N)
c = [0] * (N * N)
def row(i):
    j = 0
    while j < N:
        total = 0
        k = 0
        while k < N:
            total += a[i * N + k] * b[k * N + j]
            k = k + 1
        c[i * N + j] = total
        j = j + 1
for i in range(N * N):
    a[i] = i % 7
    b[i] = i % 11
for i in range(N):
    row(i)
print(sum(c[i * N + i] for i in range(N)))
""")

QUEENS = ("N queens", """
int attacked(int square, int columns, int up, int down) {
  return columns / square % 2 + up / square % 2 + down / square % 2 > 0;
}
cilk int place(int rows, int end, int square, int columns, int up, int down) {
  int here, further, hit;
  if (rows == 0) return 1;
  if (square == end) return 0;
  hit = attacked(square, columns, up, down);
  if (!hit)
    here = spawn place(rows - 1, end, 1, columns + square, (up + square) * 2, (down + square) / 2);
  further = spawn place(rows, end, square * 2, columns, up, down);
  sync;
  return here + further;
}
cilk int main() {
  int end, i, ways;
  end = 1;
  for (i = 0; i < N; i++) end = end * 2;
  ways = spawn place(N, end, 1, 0, 0, 0);
  sync;
  print(ways);
  return 0;
}
""", """
def attacked(square, columns, up, down):
    return columns // square % 2 + up // square % 2 + down // square % 2 > 0
def place(rows, end, square, columns, up, down):
    here = 0
    if rows == 0:
        return 1
    if square == end:
        return 0
    if not attacked(square, columns, up, down):
        here = place(rows - 1, end, 1, columns + square, (up + square) * 2, (down + square) // 2)
    further = place(rows, end, square * 2, columns, up, down)
    return here + further
print(place(N, 2 ** N, 1, 0, 0, 0))
""")

SORT = ("merge sort of N words", """
int a[N], scratch[N];
void merge(int low, int middle, int high) {
  int i, j, k;
  i = low;
  j = middle;
  for (k = low; k < high; k++) {
    if (j == high || (i < middle && a[i] <= a[j])) { scratch[k] = a[i]; i++; }
    else { scratch[k] = a[j]; j++; }
  }
  for (k = low; k < high; k++) a[k] = scratch[k];
}
cilk void sort(int low, int high) {
  int middle;
  if (high - low < 2) return;
  middle = (low + high) / 2;
  spawn sort(low, middle);
  spawn sort(middle, high);
  sync;
  merge(low, middle, high);
}
cilk int main() {
  int i, x;
  x = 1;
  for (i = 0; i < N; i++) { x = x * 421 % 10007; a[i] = x; }
  spawn sort(0, N);
  sync;
  print(a[0]);
  print(a[N / 2]);
  return 0;
}
""", """
a = [0] * N
scratch = [0] * N
def merge(low, middle, high):
    i = low
    j = middle
    k = low
    while k < high:
        if j == high or (i < middle and a[i] <= a[j]):
            scratch[k] = a[i]
            i += 1
        else:
            scratch[k] = a[j]
            j += 1
        k += 1
    k = low
    while k < high:
        a[k] = scratch[k]
        k += 1
def sort(low, high):
    if high - low < 2:
        return
    middle = (low + high) // 2
    sort(low, middle)
    sort(middle, high)
    merge(low, middle, high)
x = 1
for i in range(N):
    x = x * 421 % 10007
    a[i] = x
sort(0, N)
print(a[0])
print(a[N // 2])
""")

# Each program with the size at which it stays just below 2,000,000 ticks.
PROGRAMS = [(FIB, 27), (SUM, 65536), (SIEVE, 325000), (MATRIX, 86), (QUEENS, 9), (SORT, 16700)]


def cilk_of(source, size):
    """The source for this size, whose products of numbers are worked out."""
    text = re.sub(r"\[N \* N\]", f"[{size * size}]", source)
    return re.sub(r"\bN\b", str(size), text)


def c_of(cilk):
    """The C elision: a spawn is a call, and a sync does nothing. Locals are 0 at first."""
    text = re.sub(r"\b(cilk|spawn)\b", "", cilk)
    text = re.sub(r"\bsync\s*;", ";", text)
    text = re.sub(r"\bint main\b", "INT main", re.sub(r"\bint (?!main\b)", "long ", text)).replace("INT", "int")
    text = re.sub(r"\blong (\w+(?:, \w+)*);", lambda found: "long " + ", ".join(f"{name} = 0" for name in found[1].split(", ")) + ";", text)
    return '#include <stdio.h>\n#define print(e) printf("%ld\\n", (long)(e))\n' + text


def python_of(source, size):
    return "import sys\nsys.setrecursionlimit(10000)\n" + re.sub(r"\bN\b", str(size), source)
