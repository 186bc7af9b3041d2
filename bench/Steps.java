// Loops for bench/steps.py, one for each kind of instruction that a run of the machine spends its time on.
class Node {
    int value;
    Node next;

    Node(int value, Node next) {
        this.value = value;
        this.next = next;
    }

    int value() {
        return value;
    }
}

interface Shape {
    int area();
}

class Square implements Shape {
    int side;

    Square(int side) {
        this.side = side;
    }

    public int area() {
        return side * side;
    }
}

public class Steps {
    static int total;

    static int arithmetic(int n) {
        int x = 1;
        for (int i = 0; i < n; i++) {
            x = x * 31 + i;
            x ^= x >>> 7;
        }
        return x;
    }

    static int longs(int n) {
        long x = 7;
        for (int i = 0; i < n; i++) {
            x = x * 6364136223846793005L + 1442695040888963407L;
            x ^= x >>> 13;
        }
        return (int) x;
    }

    static int arrays(int n) {
        int[] a = new int[16];
        for (int i = 0; i < n; i++) {
            a[i & 15] += a[(i + 3) & 15] + i;
        }
        return a[3];
    }

    static int primes(int n) {
        int count = 0;
        for (int round = 0; round < n; round++) {
            boolean[] composite = new boolean[1001];
            for (int i = 2; i < composite.length; i++) {
                if (!composite[i]) {
                    count++;
                    for (int j = i + i; j < composite.length; j += i) {
                        composite[j] = true;
                    }
                }
            }
        }
        return count;
    }

    static int fields(int n) {
        Node node = new Node(1, null);
        for (int i = 0; i < n; i++) {
            node.value = node.value + i;
        }
        return node.value;
    }

    static int statics(int n) {
        for (int i = 0; i < n; i++) {
            total = total + i;
        }
        return total;
    }

    static int add(int a, int b) {
        return a + b;
    }

    static int calls(int n) {
        int x = 0;
        for (int i = 0; i < n; i++) {
            x = add(x, i);
        }
        return x;
    }

    static int recursion(int n) {
        return n < 2 ? n : recursion(n - 1) + recursion(n - 2);
    }

    static int selected(int n) {
        Shape shape = new Square(3);
        Node node = new Node(4, null);
        int x = 0;
        for (int i = 0; i < n; i++) {
            x += shape.area() + node.value();
        }
        return x;
    }

    static int objects(int n) {
        Node node = null;
        for (int i = 0; i < n; i++) {
            node = new Node(i, node);
            if ((i & 255) == 0) {
                node = null;
            }
        }
        return node == null ? 0 : node.value;
    }

    static int texts(int n) {
        int x = 0;
        for (int i = 0; i < n; i++) {
            StringBuilder builder = new StringBuilder();
            builder.append("item ").append(i);
            x += builder.toString().length();
        }
        return x;
    }
}
